# A real browser for the tests that source this, by its driver (page/tests); they are left out where there is none.
page_tests=$(cd "$(dirname "${BASH_SOURCE[0]}")/../../../page/tests" && pwd)
missing=
command -v chromium >/dev/null || missing+=' chromium'
command -v chromedriver >/dev/null || missing+=' chromium-driver'
/usr/bin/python3 -c 'import selenium' 2>/dev/null || missing+=' python3-selenium'
if [ -n "$missing" ]; then
    echo "$(basename "$0") left out: apt-get install$missing"
    exit 0
fi
embedded() {
    /usr/bin/python3 "$page_tests/embedded.py" "$@"
}
