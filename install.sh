#!/bin/sh
# Proves and builds programs or the library for C, and installs them. `./install.sh --help` prints how it is called.
#
# It names each crate as it is proved. If the toolchain keeps what the gate or an earlier run proved on this machine, a later run
# takes less than a minute. RT_JOBS sets how many proofs run side by side; by default as many as processors and memory allow.
set -eu

print_help() {
    cat <<'END'
Usage: ./install.sh [OPTION].. [FOLDER]

Proves and builds the program markdown, and installs it in FOLDER (~/.local/bin).

Options:
  --program NAME  Install this program instead; may be repeated. NAME is one of
                  markdown (Markdown to HTML), markdown-lint (finds what is
                  wrong or unwise), markdown-fmt (formats), markdown-safe (tells
                  whether pages are safe) or markdown-events (prints the events)
  --all           Install all five programs
  --library       Install the library for C below FOLDER (~/.local): the header,
                  the static and the shared library, and a file for pkg-config
  --help          Print this

The first run takes most of an hour, for a further program some minutes more.
Later runs take less than a minute if the toolchain keeps what it proved.
END
}

fail() { echo "install.sh: $*" >&2; exit 2; }

programs='' library='' folder='' noted=''
while [ $# -gt 0 ]; do
    case $1 in
        --help | -h) print_help; exit ;;
        --all) programs='markdown markdown-events markdown-lint markdown-fmt markdown-safe' ;;
        --library) library=yes ;;
        --program)
            case ${2:-} in
                markdown | markdown-events | markdown-lint | markdown-fmt | markdown-safe) programs="$programs $2" ;;
                *) fail "--program wants markdown, markdown-events, markdown-lint, markdown-fmt or markdown-safe" ;;
            esac
            shift ;;
        -*) fail "$1 is no option; --help lists them" ;;
        *) [ -z "$folder" ] || fail "there are two folders: $folder and $1"; folder=$1 ;;
    esac
    shift
done
[ -z "$library" ] || [ -z "$programs" ] || fail "--library installs no programs"
command -v rt > /dev/null || {
    cat >&2 <<'END'
install.sh: there is no `rt` on the PATH. Nothing is built here without the Rattle
toolchain, since only what is proved is built. Put its folder `bin` on the PATH, or
install a package that a machine with it has made (docs/LIBRARY.md, "Packages").
END
    exit 2
}
# Another toolchain may refuse the proofs, or prove less.
version=$(rt version)
case ${version%% *} in
    rattle-kit-13b | rattle-kit-13f) ;;
    *) echo "note: this is proved with the kits rattle-kit-13b and rattle-kit-13f, and \`rt version\` is $version" >&2 ;;
esac
if [ -n "$library" ]; then
    for tool in "${CC:-cc}" ar; do
        command -v "$tool" > /dev/null || fail "--library needs $tool, which isn't on the PATH"
    done
    folder=${folder:-$HOME/.local}
else
    folder=${folder:-$HOME/.local/bin}
fi
mkdir -p "$folder" || fail "the folder $folder can't be made; name another one"
folder=$(cd "$folder" && pwd)
# Proofs take most of an hour, so what is written after them is tried before.
[ -w "$folder" ] || fail "$folder can't be written; name another folder"
cd "$(dirname "$0")"
scratch=$(mktemp -d)
trap 'rm -rf "$scratch"' EXIT
trap 'exit 1' INT TERM
copy=$scratch/copy

# The crate of a program.
crate_of() {
    case $1 in
        markdown) echo markdown_program ;;
        *) echo "$1" | tr - _ ;;
    esac
}

# Names each crate on a line of its own as `rt ci` passes it.
show_progress() {
    count=0
    while read -r mark name what; do
        case "$mark $what" in
            "rt: proved") count=$((count + 1)); echo "$count of $1: $name" >&2 ;;
            "rt: is kept:"*) count=$((count + 1)); echo "$count of $1: $name, proved before" >&2 ;;
        esac
        if [ "$mark $name" = "rt: note:" ]; then echo "note: $what" >&2; fi
    done
}

# Runs a command, and shows its output only if it fails.
quietly() { "$@" > "$scratch/log" 2>&1 || { cat "$scratch/log" >&2; exit 1; }; }

# Says so if a program's name as a command isn't the program just installed.
check_path() {
    found=$(command -v "$1" || true)
    if [ -n "$found" ] && ! [ "$found" -ef "$folder/$1" ]; then
        echo "note: the command $1 is $found. For this one: export PATH=$folder:\$PATH" >&2
    elif [ -z "$found" ] && [ -z "$noted" ]; then
        echo "note: $folder isn't on your PATH: export PATH=$folder:\$PATH" >&2
        noted=yes
    fi
}

install_program() {
    crate=$(crate_of "$1")
    built=crates/$crate/out/$crate
    mkdir -p "crates/$crate/out"
    # A new file each time: the old one may be running.
    for to in "$built" "$folder/$1"; do
        cp "$copy/$built" "$to.new"
        mv "$to.new" "$to"
    done
    echo "installed $folder/$1, as $built" >&2
    check_path "$1"
}

install_library() {
    echo "proving markdown_c, and building it" >&2
    quietly bin/library "$copy/crates"
    quietly bin/archive "$folder"
    echo "installed below $folder: include/markdown.h, lib/libmarkdown-proved.a and .so, lib/pkgconfig/markdown-proved.pc" >&2
}

if [ -n "$library" ]; then
    set -- markdown_c
else
    programs=${programs:-markdown}
    set --
    for program in $programs; do set -- "$@" "$(crate_of "$program")"; done
fi
# What is built is kept in the checkout, too.
for crate do
    place=crates/$crate/out
    [ -d "$place" ] || place=crates/$crate
    [ -w "$place" ] || fail "$PWD/$place can't be written, and what is built is kept there; take a copy of this checkout"
done
crates=$(bin/below "$@" | sed '/ staticlib:/d' | wc -l)
echo "proving $crates crates" >&2
bin/prove "$copy" "$@" 2>&1 | tee "$scratch/ci" | show_progress "$crates"
tail -n 1 "$scratch/ci" | grep -q "^$crates passed, 0 failed" || { cat "$scratch/ci" >&2; exit 1; }
if [ -n "$library" ]; then
    install_library
else
    for program in $programs; do install_program "$program"; done
fi
