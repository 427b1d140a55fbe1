#!/bin/sh
# Builds the programs in C, C++, Rust and Python over the library for C, each if its compiler is there, and compares what they
# write for a text with each feature with its HTML. The last line is `N passed, M failed`.
#
#     examples/run.sh [FOLDER]
#
# FOLDER has the library, as ./install.sh --library FOLDER leaves it. Without FOLDER the library is built first. $CC and $CXX name
# the compilers, if they aren't cc and c++. If valgrind is there, the C programs run under it too.
set -eu
here=$(cd "$(dirname "$0")" && pwd)
page=$here/../crates/examples_library events=$here/../crates/markdown_events
scratch=$(mktemp -d)
trap 'rm -rf "$scratch"' EXIT
passed=0 failed=0

# What is checked, and then a command that is to succeed.
check() {
    what=$1
    shift
    if "$@"; then passed=$((passed + 1)); else failed=$((failed + 1)); echo "failed: $what" >&2; fi
}

works() { "$@" > /dev/null 2>&1; }
converts() { "$@" --gfm --math --frontmatter --mark < "$page/stdin" | cmp - "$page/stdout"; }
filters() { printf '<b><title>' | "$@" --gfm --dangerous | grep -qx '<p><b>&lt;title></p>'; }
refuses() { ! printf 'a\377' | "$@" > "$scratch/out" 2>&1 && ! [ "$(head -c 1 "$scratch/out")" = '<' ]; }
lists_events() { "$1" < "$events/stdin" | cmp - "$events/stdout"; }
stops() { [ "$("$1" 3 < "$events/stdin" | wc -l)" = 3 ] && { status=0; "$1" 0 < "$events/stdin" || status=$?; [ "$status" = 3 ]; }; }
# Whether a command that gets the path of a text prints its table of contents.
lists_contents() { "$@" page.md > "$scratch/contents.out" < page.md && cmp "$scratch/contents.out" contents.md; }
lists_outline() { "$@" < "$here/contents/page.md" | cmp - "$here/contents/outline.txt"; }
# Whether HTML with a script and an open element is sanitized.
sanitizes() { [ "$(printf '<p onclick="a()">b <i>c</p><script>d</script>' | "$@")" = '<p>b <i>c</i></p>&lt;script&gt;d&lt;/script&gt;' ]; }
lists_links() { "$@" < "$here/links/page.md" | cmp - "$here/links/links.txt"; }
# Whether a command that gets the path of a text prints its links that lead to no file.
finds_missing() ( cd "$here/links" && "$@" page.md | cmp - missing.txt )
# Whether a command that gets the path of a text prints what recipes make of it.
follows_recipes() { "$@" "$here/recipes/page.md" | cmp - "$here/recipes/recipes.txt"; }
writes_comments() ( cd "$here/comments" && "$@" 1.md 2.md | cmp - page.html )
# Whether the ids of footnotes begin with a prefix.
prefixes() { [ "$(printf 'a[^1]\n\n[^1]: b' | "$@" --gfm --prefix=c- | grep -o 'id="c-fn[^"]*"' | tr '\n' ' ')" = 'id="c-fnref-1" id="c-fn-1" ' ]; }
# Whether the page with each feature is a safe page, and a page with a script isn't.
tests_pages() { "$1" < "$page/stdout" && { status=0; printf '<script></script>' | "$1" || status=$?; [ "$status" = 1 ]; }; }
tells_pages() { [ "$("$@" < "$page/stdout")" = true ] && [ "$(printf '<script></script>' | "$@")" = false ]; }
tries() {
    name=$1
    shift
    check "$name: a page" converts "$@"
    check "$name: HTML" filters "$@"
    check "$name: no UTF-8" refuses "$@"
}
compile() { ${CC:-cc} -std=c11 -O2 -Wall -Wextra -I"$library/include" -L"$library/lib" "$@" -l:libmarkdown-proved.a; }
# By pkg-config, with the shared library.
compile_shared() (
    PKG_CONFIG_PATH=$library/lib/pkgconfig
    export PKG_CONFIG_PATH
    ${CXX:-c++} -std=c++11 -O2 -Wall -Wextra -Wpedantic "$@" $(pkg-config --cflags --libs markdown-proved) -Wl,-rpath,"$library/lib"
)
# Whether the shared library exports these functions alone, and its version is the header's.
exports() { [ "$(nm -D --defined-only "$library/lib/libmarkdown-proved.so" | awk '{ print $3 }' | sort | tr '\n' ' ')" = "$*" ]; }
names_itself() { objdump -p "$library/lib/libmarkdown-proved.so" | grep -q "SONAME *$1$"; }
tells_version() {
    printf '#include "markdown.h"\nint main(void) { return markdown_version() != MARKDOWN_VERSION || !markdown_is_supported(); }\n' > "$scratch/version.c"
    compile -o "$scratch/version" "$scratch/version.c" && "$scratch/version" \
        && [ "$(printf '%d' "$(sed -n 's/^#define MARKDOWN_VERSION //p' "$library/include/markdown.h")")" \
            = "$(sed -n 's/^#define MARKDOWN_VERSION_TEXT "\(.*\)"/\1/p' "$library/include/markdown.h" | awk -F. '{ print $1 * 65536 + $2 * 256 + $3 }')" ]
}

printf 'int main(void) { return 0; }\n' > "$scratch/empty.c"
works ${CC:-cc} -o "$scratch/empty" "$scratch/empty.c" || { echo "0 passed, 0 failed: there is no C compiler"; exit; }
library=${1:-$scratch}
[ $# -gt 0 ] || "$here/../install.sh" --library "$library" 2> "$scratch/log" || { cat "$scratch/log" >&2; exit 1; }

check "C" compile -o "$scratch/convert" "$here/c/convert.c"
tries "C" "$scratch/convert"
check "C: the version" tells_version
if works nm --version; then check "the functions of the library" exports "markdown_check_page markdown_convert markdown_convert_by_numbers markdown_convert_with markdown_decode markdown_list_events markdown_list_events_with markdown_list_links_with markdown_list_outline_with markdown_normalize_label markdown_sanitize_with markdown_version "; fi
if works objdump --version; then check "the name of the library" names_itself libmarkdown-proved.so.0.1; fi
check "C: events" compile -o "$scratch/events" "$here/c/events.c"
check "C: events" lists_events "$scratch/events"
check "C: a callback that stops" stops "$scratch/events"
check "C: contents" compile -o "$scratch/contents" "$here/c/contents.c"
cd "$here/contents"
check "C: contents" lists_contents "$scratch/contents"
check "C: links" compile -o "$scratch/links" "$here/c/links.c"
check "C: links" lists_links "$scratch/links"
check "C: headings" compile -o "$scratch/outline" "$here/c/outline.c"
check "C: headings" lists_outline "$scratch/outline"
check "C: sanitized HTML" compile -o "$scratch/sanitize" "$here/c/sanitize.c"
check "C: sanitized HTML" sanitizes "$scratch/sanitize"
check "C: comments" compile -o "$scratch/comments" "$here/c/comments.c"
check "C: comments" writes_comments "$scratch/comments"
check "C: safe pages" compile -o "$scratch/safe_page" "$here/c/safe_page.c"
check "C: safe pages" tests_pages "$scratch/safe_page"
check "C: refusals" compile -Wl,--wrap=malloc -Wl,--wrap=realloc -o "$scratch/refusals" "$here/c/refusals.c"
check "C: refusals" "$scratch/refusals"
if works valgrind true; then
    check "C: memory" converts valgrind -q --error-exitcode=9 --leak-check=full "$scratch/convert"
    check "C: memory of events" lists_contents valgrind -q --error-exitcode=9 --leak-check=full "$scratch/contents"
    check "C: memory of links" lists_links valgrind -q --error-exitcode=9 --leak-check=full "$scratch/links"
    check "C: memory of headings" lists_outline valgrind -q --error-exitcode=9 --leak-check=full "$scratch/outline"
    check "C: memory of sanitized HTML" sanitizes valgrind -q --error-exitcode=9 --leak-check=full "$scratch/sanitize"
    check "C: memory of comments" writes_comments valgrind -q --error-exitcode=9 --leak-check=full "$scratch/comments"
    check "C: memory of refusals" valgrind -q --error-exitcode=9 --leak-check=full "$scratch/refusals"
fi
if works pkg-config --version && works ${CXX:-c++} --version; then
    check "C++" compile_shared -o "$scratch/cpp" "$here/cpp/convert.cpp"
    tries "C++" "$scratch/cpp"
    check "C++: a prefix" prefixes "$scratch/cpp"
fi
if works rustc --version; then
    check "Rust" rustc --edition 2021 -O -L "$library/lib" -o "$scratch/rust" "$here/rust/convert.rs"
    tries "Rust" "$scratch/rust"
    check "Rust: events" rustc --edition 2021 -O -L "$library/lib" -o "$scratch/rust_events" "$here/rust/list_events.rs"
    check "Rust: events" lists_events "$scratch/rust_events"
    check "Rust: links" rustc --edition 2021 -O -L "$library/lib" -o "$scratch/rust_links" "$here/rust/list_links.rs"
    check "Rust: links" lists_links "$scratch/rust_links"
    check "Rust: headings" rustc --edition 2021 -O -L "$library/lib" -o "$scratch/rust_outline" "$here/rust/list_outline.rs"
    check "Rust: headings" lists_outline "$scratch/rust_outline"
    check "Rust: sanitized HTML" sanitizes "$scratch/rust" --sanitize
    check "Rust: a prefix" prefixes "$scratch/rust"
    check "Rust: safe pages" tells_pages "$scratch/rust" --safe-page
fi
if works python3 -c 'import ctypes'; then
    PYTHONPATH=$here/../packaging/python PYTHONDONTWRITEBYTECODE=1
    export PYTHONPATH PYTHONDONTWRITEBYTECODE
    tries "Python" python3 "$here/python/convert.py" "$library/lib/libmarkdown-proved.so"
    check "Python: links" finds_missing python3 "$here/python/links.py" "$library/lib/libmarkdown-proved.so"
    check "Python: headings" lists_outline python3 "$here/python/outline.py" "$library/lib/libmarkdown-proved.so" "$here/contents/page.md"
    check "Python: recipes" follows_recipes python3 "$here/python/recipes.py" "$library/lib/libmarkdown-proved.so"
    check "Python: contents" lists_contents python3 "$here/python/contents.py" "$library/lib/libmarkdown-proved.so"
fi
echo "$passed passed, $failed failed"
[ "$failed" = 0 ]
