#!/bin/sh
# Installs the programs that this one is measured beside from the system's packages, where they are missing, and builds
# those that need a `main`: md4c, and pulldown-cmark with SIMD, for pages and for events. It prints nothing but faults.
#
#     bench/peers.sh FOLDER
set -eu
here=$(cd "$(dirname "$0")" && pwd)
packages="cmark cmark-gfm libcmark-dev libmd4c-dev libmd4c-html0-dev librust-pulldown-cmark-dev time valgrind"
command -v cc > /dev/null || packages="$packages gcc libc6-dev"
command -v cargo > /dev/null || packages="$packages cargo"
missing=""
for package in $packages; do
    dpkg -s "$package" > /dev/null 2>&1 || missing="$missing $package"
done
if [ "$missing" ]; then
    log=$(mktemp)
    # shellcheck disable=SC2086
    { apt-get update && DEBIAN_FRONTEND=noninteractive apt-get install -y --no-install-recommends $missing; } > "$log" 2>&1 \
        || { cat "$log" >&2; exit 1; }
    rm "$log"
fi
mkdir -p "$1/pulldown"
cc -O3 -o "$1/md4c" "$here/peers/md4c.c" -lmd4c-html -lmd4c
cp "$here/peers/Cargo.toml" "$here/peers/pulldown.rs" "$here/peers/offsets.rs" "$1/pulldown/"
printf '[source.crates-io]\nreplace-with = "debian"\n[source.debian]\ndirectory = "/usr/share/cargo/registry"\n' > "$1/pulldown/config.toml"
(cd "$1/pulldown" && cargo --config config.toml build --quiet --release --offline)
cp "$1/pulldown/target/release/pulldown" "$1/pulldown-cmark"
cp "$1/pulldown/target/release/offsets" "$1/offsets"
