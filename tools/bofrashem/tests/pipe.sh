#!/usr/bin/env bash
# The built program through pipes and with files that the system refuses: tests/pipe.sh BOFRASHEM SAMPLES [PRINTROUND]
set -uo pipefail
tool=$1 samples=$2 printround=${3:-}
folder=$(mktemp -d)
trap 'chmod -R u+rwx "$folder"; rm -rf "$folder"' EXIT
passed=0 failed=0

# is WHAT EXPECTED GOT
is() {
    if [ "$2" = "$3" ]; then passed=$((passed + 1)); return; fi
    failed=$((failed + 1))
    echo "$1: expected '$2', got '$3'"
}
has() {
    case $3 in *"$2"*) passed=$((passed + 1)) ;; *) failed=$((failed + 1)); echo "$1: no '$2' in '$3'" ;; esac
}

# standard input, in both forms
has 'a pipe' 'nodes      13' "$("$tool" info - <"$samples/dock.section")"
piped=$("$tool" convert "$samples/hall.section" - --form container | "$tool" info -)
has 'a container in a pipe' 'container RSC7' "$piped"
"$tool" convert "$samples/hall.section" - | cmp -s - "$samples/hall.section"
is 'a section through a pipe' 0 $?
has 'a round in a pipe' 'end done' "$("$tool" round make 6 0 1 1 1 -o - | "$tool" print "$samples/dock.section" -)"

# a reader that goes away
"$tool" draw "$samples/yard.section" -o - | head -c 100 >"$folder/head" 2>"$folder/err"
is 'a reader that goes away' '0 ' "${PIPESTATUS[0]} $(cat "$folder/err")"
"$tool" draw "$samples/yard.section" -o - >/dev/full 2>"$folder/err"
is 'a full disk' 3 $?
has 'a full disk, in words' "can't be written" "$(cat "$folder/err")"

for words in --help man 'completions zsh' "info $samples/dock.section" "--json near $samples/yard.section 0 0 900"; do
    # shellcheck disable=SC2086
    "$tool" $words 2>"$folder/err" | head -c 1 >/dev/null
    is "a reader that goes away from $words" '0 ' "${PIPESTATUS[0]} $(cat "$folder/err")"
done
"$tool" info "$samples/dock.section" >&-
is 'standard output closed' 0 $?
"$tool" info "$folder/none" 2>&-
is 'standard error closed' 3 $?
is 'standard input closed' 0 "$("$tool" info - <&- >/dev/null; echo $?)"

# exit status and words
status() { "$@" >"$folder/out" 2>"$folder/err"; echo $?; }
is 'accepted' 0 "$(status "$tool" info "$samples/dock.section")"
is 'no arguments' 2 "$(status "$tool")"
is 'no such command' 2 "$(status "$tool" fly)"
is 'a folder' 3 "$(status "$tool" info "$folder")"
has 'a folder, in words' 'Is a directory' "$(cat "$folder/err")"
is 'an empty file' 0 "$(status "$tool" info /dev/null)"
has 'an empty file, in words' 'not drawn yet' "$(cat "$folder/out")"
head -c 65537 /dev/zero >"$folder/long"
is 'print of 65,537 bytes' 1 "$(status "$tool" print "$folder/long" "$samples/dock.round")"
is 'print of 65,537 bytes, its line' 'bad input' "$(cat "$folder/out")"
head -c 100 "$samples/dock.section" >"$folder/short"
is 'too short' 1 "$(status "$tool" info "$folder/short")"
words="bofrashem: $folder/short: refused 1 0: 1 to 111 system bytes (100 bytes)"
is 'too short, in words' "$words" "$(cat "$folder/err")"
is 'too short, in JSON' 1 "$(status "$tool" --json info "$folder/short")"
has 'too short, number in JSON' '"number":1,"place":0' "$(cat "$folder/err")"
"$tool" convert "$samples/hall.section" "$folder/hall.ynd" >/dev/null
head -c 200 "$folder/hall.ynd" >"$folder/cut.ynd"
is 'a truncated container' 1 "$(status "$tool" info "$folder/cut.ynd")"
has 'a truncated container, in words' 'container: truncated' "$(cat "$folder/err")"
is 'check' 1 "$(status "$tool" check "$samples/dock.section" "$folder/cut.ynd" "$folder/short")"
is 'check, its lines' 2 "$(wc -l <"$folder/out")"

# no permission: as somebody else, where this is root
cp "$samples/dock.section" "$folder/mine"
chmod 000 "$folder/mine"
as=()
if [ "$(id -u)" = 0 ]; then
    chmod 711 "$folder"
    cp "$tool" "$folder/tool"
    command -v setpriv >/dev/null && as=(setpriv --reuid=65534 --regid=65534 --clear-groups "$folder/tool") || as=()
else
    as=("$tool")
fi
if [ ${#as[@]} -gt 0 ]; then
    is 'no permission' 3 "$(status "${as[@]}" info "$folder/mine")"
    has 'no permission, in words' 'Permission denied' "$(cat "$folder/err")"
fi

# a write that ends early leaves the old file whole: no room (a limit on a file's size), killed by the limit, killed at
# any moment, a folder that takes no file
whole() { cmp -s "$samples/hall.section" "$1"; is "$2 leaves the old file whole" 0 $?; }
cp "$samples/hall.section" "$folder/old"
is 'no room' 3 "$(trap '' XFSZ; ulimit -f 1; status "$tool" convert "$samples/yard.section" "$folder/old")"
has 'no room, in words' "can't be written" "$(cat "$folder/err")"
whole "$folder/old" 'no room'
is 'no room leaves nothing else' '' "$(find "$folder" -name '.bofrashem-*')"
{ (ulimit -f 1; ulimit -c 0; "$tool" convert "$samples/yard.section" "$folder/old"); killed=$?; } 2>/dev/null
is "the limit kills" $((128 + 25)) $killed
whole "$folder/old" 'the limit'
rm -f "$folder"/.bofrashem-*
"$tool" convert "$samples/yard.section" "$folder/large.ynd" >/dev/null
cp "$folder/large.ynd" "$folder/other.ynd"
torn=0 early=0
for k in $(seq 60); do
    cp "$samples/hall.section" "$folder/old"
    "$tool" convert "$folder/large.ynd" "$folder/old" >/dev/null 2>&1 &
    victim=$!
    sleep "0.00$((k % 10))"
    kill -9 $victim 2>/dev/null
    wait $victim 2>/dev/null
    if cmp -s "$samples/hall.section" "$folder/old"; then early=$((early + 1))
    elif ! cmp -s "$samples/yard.section" "$folder/old"; then torn=$((torn + 1)); fi
done
is 'killed at any moment: torn files' 0 $torn
echo "pipe.sh: killed 60 times while writing: $early times the old file stood, else the new one"
mkdir "$folder/closed"
cp "$samples/hall.section" "$folder/closed/old"
chmod 666 "$folder/closed/old"
chmod 555 "$folder/closed"
if [ ${#as[@]} -gt 0 ]; then
    is 'a folder that takes no file' 3 "$(status "${as[@]}" renumber "$samples/dock.section" "$folder/closed/old")"
    has 'a folder that takes no file, in words' "can't be written: Permission denied" "$(cat "$folder/err")"
    whole "$folder/closed/old" 'a folder that takes no file'
    chmod 777 "$folder/closed"
    chmod 444 "$folder/closed/old"
    is 'a file that may not be written' 3 "$(status "${as[@]}" renumber "$samples/dock.section" "$folder/closed/old")"
    whole "$folder/closed/old" 'a file that may not be written'
fi
is 'a device that is full' 3 "$(status "$tool" draw "$samples/dock.section" -o /dev/full)"

# many files on no terminal: no bar, and a file name that is no UTF-8
name=$(printf '%s/f\xff' "$folder")
cp "$samples/dock.section" "$name"
many=("$name")
for _ in $(seq 40); do many+=("$samples/dock.section"); done
is 'many files' 0 "$(status "$tool" check "${many[@]}")"
is 'many files say nothing' 0 "$(cat "$folder/out" "$folder/err" | wc -c)"
# a long list, in one command and by xargs
ln -s "$(realpath "$samples/dock.section")" "$folder/d"
for _ in $(seq 8000); do echo "$folder/d"; done >"$folder/list"
mapfile -t long <"$folder/list"
is 'a long list' 0 "$(status "$tool" check "${long[@]}")"
is 'a list by xargs' 0 "$(xargs -n 3000 "$tool" check <"$folder/list"; echo $?)"

# on a terminal: a bar and a count, and neither where the terminal can't move its cursor; colours nowhere
on() { script -qec "$1" /dev/null </dev/null; }
if command -v script >/dev/null && [ "$(on 'echo x' | tr -d '\r')" = x ]; then
    line="'$tool' check \$(cat '$folder/list')"
    said=$(TERM=xterm on "$line")
    has 'a terminal' '8000 yards, 0 refused or unsound' "$said"
    has 'a bar' '/8000' "$said"
    is 'a dumb terminal' '' "$(TERM=dumb on "$line")"
    for words in --help 'info --help' fly check; do
        is "no colours in $words" 0 "$(TERM=xterm on "'$tool' $words" | grep -c $'\e')"
    done
else
    echo 'no terminal tried: script (bsdutils) is missing or has none to give'
fi

# one A4 page, if what draws it is there; words if not
pdf=("$tool" print "$samples/hall.section" "$samples/hall.round" --pdf "$folder/hall.pdf")
if command -v rsvg-convert >/dev/null; then
    is 'a page' 0 "$(status "${pdf[@]}")"
    is 'a page is a PDF' '%PDF' "$(head -c 4 "$folder/hall.pdf")"
    is 'one page' 1 "$(grep -ac '/Type /Page$\|/Type /Page[^s]' "$folder/hall.pdf")"
    is 'a picture' 0 "$(status "$tool" draw "$samples/dock.section" -o "$folder/dock.png")"
fi
is 'without rsvg-convert' 3 "$(PATH=/nowhere status "${pdf[@]}")"
has 'without rsvg-convert, in words' 'apt-get install librsvg2-bin' "$(cat "$folder/err")"

# the man page and the completions
if command -v groff >/dev/null; then
    is 'the man page' '' "$("$tool" man | groff -man -ww -z 2>&1)"
fi
"$tool" completions bash | bash -n
is 'completions' 0 $?

# the proved program beside it, where it is built
same() {
    local n length
    n=$(stat -L -c %s -- "$1")
    length=$(printf '\\x%02x' $((n & 255)) $((n >> 8 & 255)) $((n >> 16 & 255)) $((n >> 24 & 255)))
    { printf "$length"; cat -- "$1" "$2"; } | "$printround" >"$folder/proved"
    "$tool" print "$1" "$2" >"$folder/ours" 2>/dev/null
    cmp -s "$folder/proved" "$folder/ours"
    is "print of $1 $2" 0 $?
}
byte() { printf "\\$(printf %03o "$1")"; }
if [ -x "$printround" ]; then
    for yard in "$samples"/*.section "$folder/short" "$folder/long" /dev/null; do
        for round in "$samples"/*.round /dev/null "$folder/short"; do same "$yard" "$round"; done
    done
    for k in $(seq 60); do
        # one byte of the yard or of the round is another
        cp "$samples/hall.section" "$folder/y"
        cp "$samples/hall.round" "$folder/r"
        byte $((k * 37 % 256)) | dd of="$folder/y" bs=1 seek=$((k * 53 % 2304)) conv=notrunc status=none
        [ $((k % 3)) = 0 ] && byte $((k * 11 % 256)) | dd of="$folder/r" bs=1 seek=$((k % 18)) conv=notrunc status=none
        same "$folder/y" "$folder/r"
    done
else
    echo 'not compared with printround: it is not built'
fi
echo "pipe.sh: $passed passed, $failed failed"
[ "$failed" = 0 ]
