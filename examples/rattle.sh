#!/bin/sh
# Makes a repository of its own out of crates/examples_library and the library, and proves and runs it by `rt ci`, which takes what
# the gate or ./install.sh has proved on this machine.
#
#     examples/rattle.sh
set -eu
top=$(cd "$(dirname "$0")/.." && pwd)
scratch=$(mktemp -d)
trap 'rm -rf "$scratch"' EXIT
mkdir "$scratch/crates"
cp -R "$top/crates/examples_library" "$scratch/crates/example"
rm -rf "$scratch/crates/example/out" "$scratch/crates/example/must-fail"
find "$scratch/crates/example" -name '*.rt' -o -name '*.antt' | xargs sed -i 's/examples_library/example/g'
sed -n 's/^examples_library:/example:/p' "$top/crates.txt" > "$scratch/crates.txt"
cp "$top/HANDLES" "$scratch"
git init -q "$scratch"
"$top/bin/vendor" "$scratch"
cd "$scratch"
rt ci > "$scratch.log" 2>&1 || { cat "$scratch.log" >&2; rm "$scratch.log"; exit 1; }
tail -n 1 "$scratch.log"
rm "$scratch.log"
