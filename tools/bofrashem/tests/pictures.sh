#!/usr/bin/env bash
# The kept pictures rendered anew, and their structure held to what the tool answers and to those that are kept:
# tests/pictures.sh BOFRASHEM SAMPLES KEPT
set -euo pipefail
tool=$1 samples=$2 kept=$3
here=$(dirname "$0")
source "$here/browser.sh"
folder=$(mktemp -d)
trap 'rm -rf "$folder"' EXIT
"$here/../pictures" "$tool" "$samples" "$folder/new" "$folder" >/dev/null
cp "$samples"/*.round "$folder"
"$tool" way "$samples/yard.section" 120 2877 --round "$folder/yard.round" >/dev/null

# number NAME OF JSON; how often a word stands in an answer
number() { sed 's/.*"'"$1"'":\([0-9]*\).*/\1/' <<<"$2"; }
often() { grep -o "\"$1\":" <<<"$2" | wc -l; }
# a PNG's width and height
size() { head -c 24 "$1" | tail -c 8 | od -An -tx1; }

while read -r name _ _ _ _ _ from to; do
    info=$("$tool" info --json "$samples/$name.section")
    round=$("$tool" round follow --json "$samples/$name.section" "$folder/$name.round")
    way=$("$tool" way --json "$samples/$name.section" "$from" "$to")
    expected="[$(number nodes "$info"),$(number links "$info"),$(often step "$round"),$(often place "$way"),true]"
    got=$(embedded counts "$folder/$name.html" </dev/null) || true
    if [ "$got" != "$expected" ]; then
        echo "pictures.sh: $name: expected $expected, got $got"
        exit 1
    fi
    if [ "$(size "$kept/$name.png")" != "$(size "$folder/new/$name.png")" ]; then
        echo "pictures.sh: $kept/$name.png has another size than the picture made anew"
        exit 1
    fi
    echo "pictures.sh: $name: nodes, links, steps of the round and of the way $got"
done < <(grep -v '^#' "$here/../pictures.txt")
