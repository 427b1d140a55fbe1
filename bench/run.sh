#!/bin/sh
# Installs what the program is measured beside, writes the texts, and prints four tables: throughput, memory and
# instructions for each kind of text, with start-up and a million tiny texts by a library call; the same with --gfm, but
# for tiny texts; growth by family; and growth with --gfm. It needs the program (./install.sh), and builds the library.
#
#     bench/run.sh [PROGRAM] [BYTES] [ROUNDS]
#
# What it builds stays in $BENCH (by default a folder that goes at the end).
set -eu
here=$(cd "$(dirname "$0")" && pwd)
program=${1:-$here/../crates/markdown_program/out/markdown_program}
bytes=${2:-10000000}
rounds=${3:-20}
folder=${BENCH:-$(mktemp -d)}
[ "${BENCH:-}" ] || trap 'rm -rf "$folder"' EXIT
mkdir -p "$folder"
"$here/peers.sh" "$folder"
python3 "$here/corpus.py" "$folder/corpus" "$bytes" > /dev/null
python3 "$here/run.py" "$folder" "$program" "$rounds"
"$here/../install.sh" --library "$folder" > "$folder/log" 2>&1 || { cat "$folder/log" >&2; exit 1; }
cc -O2 -I"$folder/include" -L"$folder/lib" -o "$folder/tiny" "$here/tiny.c" -l:libmarkdown-proved.a -lmd4c-html -lmd4c -lcmark
"$folder/tiny"
echo
python3 "$here/run.py" "$folder" "$program" "$rounds" --gfm
echo
PATH=$folder:$PATH python3 "$here/families.py" "$program"
echo
python3 "$here/families.py" "$program" --gfm
