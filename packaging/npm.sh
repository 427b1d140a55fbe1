#!/bin/sh
# Makes a package for npm of the library as WebAssembly, and prints its path.
#
#     packaging/npm.sh FOLDER OUT
#
# FOLDER is what bin/wasm has made. $HOMEPAGE is the address of the project, $SOURCE that of its source, if it is another one. The
# package has no script that runs when it is installed.
set -eu
folder=${1:?usage: packaging/npm.sh FOLDER OUT} out=${2:?usage: packaging/npm.sh FOLDER OUT}
top=$(cd "$(dirname "$0")/.." && pwd)
version=$(sed -n 's/^#define MARKDOWN_VERSION_TEXT "\(.*\)"$/\1/p' "$top/include/markdown.h")
scratch=$(mktemp -d)
trap 'rm -rf "$scratch"' EXIT
mkdir "$scratch/package"
cp "$folder/markdown.wasm" "$folder/markdown.mjs" "$folder/names.mjs" "$folder/markdown.d.mts" "$folder/NOTICES" "$top/LICENSE" \
    "$top/packaging/node/README.md" "$top/packaging/node/cli.mjs" "$scratch/package"
chmod +x "$scratch/package/cli.mjs"
# An address that isn't given has no line.
source=${SOURCE:-${HOMEPAGE:-}}
sed "s/@VERSION@/$version/; s|@HOMEPAGE@|${HOMEPAGE:-}|; s|@SOURCE@|$source|; /\"\"/d" "$top/packaging/node/package.json" \
    > "$scratch/package/package.json"
path=$out/markdown-proved-$version.tgz
tar --sort=name --owner=0 --group=0 --numeric-owner --mtime=@0 --mode=a+rX,u+w,go-w -C "$scratch" -cf - package | gzip -9n > "$path"
echo "$path"
