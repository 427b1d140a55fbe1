#!/bin/sh
# Tries the wrong bodies that the gate doesn't try, and writes what refused each into bench/wrong.tsv.
#
#     bench/wrong.sh [CRATE..]
#
# A file of crates/CRATE/wrong is a must-fail edit, too dear for the gate or of no grave fault. Without a CRATE all of them
# are tried. Rows of crates that are not tried keep their day. It fails if an edit is not refused, or can't be applied or read,
# or is refused only because a proof file names what the edit took away.
#
# A try begins with what `rt check` kept of the crate and of those below it, in any checkout on this machine. So check the crate
# first. The copy in which edits are tried is in $WRONG (by default a folder that goes at the end); RT_JOBS sets how many
# edits are tried side by side.
set -eu
top=$(cd "$(dirname "$0")/.." && pwd)
table=$top/bench/wrong.py
names=$(python3 "$table" names "$@")
folder=${WRONG:-$(mktemp -d)}
[ "${WRONG:-}" ] || trap 'rm -rf "$folder"' EXIT
mkdir -p "$folder/crates"
cp "$top/HANDLES" "$folder"
# shellcheck disable=SC2086
"$top/bin/below" $names > "$folder/crates.txt"
sed 's/[: ].*//' "$folder/crates.txt" | while read -r name; do
    mkdir -p "$folder/crates/$name"
    for part in src specs proofs must-fail; do
        rm -rf "$folder/crates/$name/$part"
        from=$part
        if [ "$part" = must-fail ]; then from=wrong; fi
        if [ -d "$top/crates/$name/$from" ]; then cp -R "$top/crates/$name/$from" "$folder/crates/$name/$part"; fi
    done
done
cd "$folder"
failed=0
for name in $names; do
    rt must-fail "$name" > "$folder/log" 2>&1 || true
    python3 "$table" write "$name" < "$folder/log" || failed=1
done
exit "$failed"
