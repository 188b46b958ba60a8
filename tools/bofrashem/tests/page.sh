#!/usr/bin/env bash
# The page that `draw` makes, used in a browser as a person does: tests/page.sh BOFRASHEM SAMPLES
set -euo pipefail
tool=$1 samples=$2
here=$(dirname "$0")
source "$here/browser.sh"
folder=$(mktemp -d)
trap 'rm -rf "$folder"' EXIT
if ! "$tool" draw "$samples/hall.section" --round "$samples/hall.round" -o "$folder/hall.html" >"$folder/said" 2>&1; then
    grep -q 'the page is not in this program' "$folder/said" || { cat "$folder/said"; exit 1; }
    echo 'page.sh left out: the page is not built (make page)'
    exit 0
fi
got=$(embedded uses "$folder/hall.html") || true
expected='["node 5", 5, 60, "Step 2 of 7: node 2", "Step 1 of 7: node 1", "Node 0", 1.0]'
if [ "$got" != "$expected" ]; then
    echo "page.sh: expected $expected"
    echo "page.sh: got      $got"
    exit 1
fi
echo 'page.sh: a click, a zoom, a drag, steps and a link of the page do what they should'
