#!/bin/sh
# Each file under crates/ that says in its first line that a program of gen/ or plain/ wrote it is as that program writes it. In a
# copy, those files are removed and written anew; nothing here is changed. A file that no program writes any more is told, too.
set -eu
cd "$(dirname "$0")/.."
work=$(mktemp -d)
trap 'rm -rf "$work"' EXIT
mkdir "$work/anew"
cp -R gen "$work/anew"
tar -c --exclude='crates/*/out' crates | tar -x -C "$work/anew" # out/ is large, and may change meanwhile

find "$work/anew/crates" -name '*.antt' -exec \
    awk 'FNR == 1 && tolower($0) ~ /written by (gen|plain)\// { print FILENAME }' {} + >"$work/files"
while IFS= read -r file; do rm "$file"; done <"$work/files"
for program in "$work"/anew/gen/*.py; do python3 "$program"; done
scripts/sessions.sh "$work/anew" >"$work/said"

if diff -r -x out crates "$work/anew/crates" >"$work/differences"; then
    echo "$(wc -l <"$work/files") generated files are as they are written"
else
    sed "s|$work/||" "$work/differences" | cut -c 1-200 | head -n 40
    exit 1
fi
