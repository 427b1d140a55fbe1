#!/bin/sh
# Makes packages for Debian of installed programs and library, and prints their paths: markdown-proved (the programs),
# libmarkdown-proved0.1 (the shared library) and libmarkdown-proved-dev (header, static library, pkg-config).
#
#     packaging/deb.sh PROGRAMS FOLDER OUT
#
# PROGRAMS is what `./install.sh --all PROGRAMS` has made, FOLDER what `./install.sh --library FOLDER` has made. Debian has other
# packages `markdown` and `libmarkdown2`. So the program markdown is /usr/bin/markdown-proved, and /usr/bin/markdown is an
# alternative that leads to it. The others keep their names. $DEBFULLNAME and $DEBEMAIL name the maintainer, $SOURCE_DATE_EPOCH the
# time of the build, $HOMEPAGE the address of the project, $SOURCE that of its source, if it is another one.
set -eu
[ $# = 3 ] || { echo "usage: packaging/deb.sh PROGRAMS FOLDER OUT" >&2; exit 2; }
programs=$1 folder=$2 out=$(cd "$3" && pwd)
here=$(cd "$(dirname "$0")" && pwd)
upstream=$("$programs/markdown" --version | sed 's/.* //')
version=$upstream-1
architecture=$(dpkg --print-architecture)
triple=$(dpkg-architecture -qDEB_HOST_MULTIARCH)
maintainer="${DEBFULLNAME:-Developers of markdown} <${DEBEMAIL:-markdown@localhost.localdomain}>"
SOURCE_DATE_EPOCH=${SOURCE_DATE_EPOCH:-$(date +%s)}
export SOURCE_DATE_EPOCH
umask 022
scratch=$(mktemp -d)
trap 'rm -rf "$scratch"' EXIT
so=libmarkdown-proved.so.$upstream
case $upstream in 0.*) abi=${upstream%.*} ;; *) abi=${upstream%%.*} ;; esac
soname=libmarkdown-proved.so.$abi
package=libmarkdown-proved$abi
source=${SOURCE:-${HOMEPAGE:-}}

# The notices of what is in the programs of others. The library has its own.
notices=$scratch/notices
"$here/../bin/notices" markdown_program markdown_events markdown_lint markdown_fmt markdown_safe > "$notices"

# Makes a package of the tree $scratch/NAME: its name, section and first words of its description; further fields; more of the
# description.
make_package() {
    name=$1 section=$2 summary=$3 fields=$4 more=$5
    root=$scratch/$name
    doc=$root/usr/share/doc/$name
    mkdir -p "$root/DEBIAN" "$doc"
    {
        printf 'Format: https://www.debian.org/doc/packaging-manuals/copyright-format/1.0/\nUpstream-Name: markdown-proved\n%s\nFiles: *\n' \
            "${source:+Source: $source
}"
        printf 'Copyright:\n'
        sed -n 's/^Copyright (c)//p' "$here/../LICENSE"
        printf 'License: Expat\n'
        sed '/^MIT License$/d; /^Copyright/d; s/^$/./; s/^/ /' "$here/../LICENSE" | sed '1,/^ \.$/{/^ \.$/d}' | sed '1{/^ \.$/d}'
    } > "$doc/copyright"
    gzip -9n < "$notices" > "$doc/NOTICES.gz"
    printf 'markdown-proved (%s) unstable; urgency=medium\n\n  * Package version %s.\n\n -- %s  %s\n' "$version" "$upstream" \
        "$maintainer" "$(date -uR -d "@$SOURCE_DATE_EPOCH")" | gzip -9n > "$doc/changelog.Debian.gz"
    {
        printf 'Package: %s\nSource: markdown-proved\nVersion: %s\nArchitecture: %s\nMaintainer: %s\n' "$name" "$version" "$architecture" "$maintainer"
        printf 'Installed-Size: %s\n%s\nSection: %s\nPriority: optional\nDescription: %s\n%s\n' "$(du -sk "$root/usr" | cut -f1)" "$fields${HOMEPAGE:+
Homepage: $HOMEPAGE}" "$section" "$summary" "$more"
    } > "$root/DEBIAN/control"
    (cd "$root" && find usr -type f -print0 | sort -z | xargs -0 md5sum) > "$root/DEBIAN/md5sums"
    dpkg-deb --root-owner-group --build "$root" "$out/${name}_${version}_$architecture.deb" > /dev/null
    echo "$out/${name}_${version}_$architecture.deb"
}

# What a file needs of other packages, beside the processor's vectors.
needs() (
    mkdir -p "$scratch/shlibs/debian"
    touch "$scratch/shlibs/debian/control"
    cd "$scratch/shlibs"
    dpkg-shlibdeps -O -e"$1" 2> /dev/null | sed 's/^shlibs:Depends=//; s/$/, sse4.2-support/'
)
ABOUT=' This converter reads CommonMark 0.31.2 and GitHub Flavored Markdown, and
 writes HTML that is safe by default. It is proved to return exactly the HTML
 of a written definition.'

# The programs.
root=$scratch/markdown-proved
completions=usr/share/bash-completion/completions
# A program of PROGRAMS, the name that it gets, and the names on its man page.
add_program() {
    install -D -s -m755 "$programs/$1" "$root/usr/bin/$2"
    mkdir -p "$root/usr/share/man/man1"
    sed "s/@DATE@/$(date -u -d "@$SOURCE_DATE_EPOCH" +%F)/; s/@VERSION@/$upstream/; s/@NAMES@/$3/; s/@NAME@/$2/
        s/markdown-proved/markdown\\\\-proved/g" "$here/$1.1" | gzip -9n > "$root/usr/share/man/man1/$2.1.gz"
    install -D -m644 "$here/$1.bash" "$root/$completions/$2"
    install -D -m644 "$here/$1.fish" "$root/usr/share/fish/vendor_completions.d/$2.fish"
    install -D -m644 "$here/_$1" "$root/usr/share/zsh/vendor-completions/_$2"
}
add_program markdown markdown-proved "markdown-proved, markdown"
add_program markdown-events markdown-events markdown-events
add_program markdown-lint markdown-lint markdown-lint
add_program markdown-safe markdown-safe markdown-safe
add_program markdown-fmt markdown-fmt markdown-fmt
mkdir "$root/DEBIAN"
cat > "$root/DEBIAN/postinst" <<END
#!/bin/sh
set -e
if [ "\$1" = configure ] || [ "\$1" = abort-upgrade ] || [ "\$1" = abort-deconfigure ] || [ "\$1" = abort-remove ]; then
    update-alternatives --install /usr/bin/markdown markdown /usr/bin/markdown-proved 50 \\
        --slave /usr/share/man/man1/markdown.1.gz markdown.1.gz /usr/share/man/man1/markdown-proved.1.gz \\
        --slave /$completions/markdown markdown.bash /$completions/markdown-proved
fi
END
cat > "$root/DEBIAN/prerm" <<'END'
#!/bin/sh
set -e
if [ "$1" = remove ] || [ "$1" = deconfigure ]; then
    update-alternatives --remove markdown /usr/bin/markdown-proved
fi
END
chmod 755 "$root/DEBIAN/postinst" "$root/DEBIAN/prerm"
make_package markdown-proved text "proved converter from Markdown to HTML" "Depends: $(needs "$root/usr/bin/markdown-proved")" "$ABOUT
 .
 Four more programs find what is wrong or unwise in Markdown (markdown-lint),
 format it and keep its page (markdown-fmt), print what is where in it
 (markdown-events), and tell whether HTML pages are safe (markdown-safe)."

# The shared library.
notices=$folder/share/doc/markdown-proved/NOTICES
root=$scratch/$package
install -D -m644 "$folder/lib/$so" "$root/usr/lib/$triple/$so"
strip --strip-unneeded --remove-section=.comment "$root/usr/lib/$triple/$so"
ln -s "$so" "$root/usr/lib/$triple/$soname"
mkdir "$root/DEBIAN"
echo "libmarkdown-proved $abi $package (>= $upstream)" > "$root/DEBIAN/shlibs"
echo "activate-noawait ldconfig" > "$root/DEBIAN/triggers"
make_package "$package" libs "proved converter from Markdown to HTML (shared library)" "Depends: $(needs "$root/usr/lib/$triple/$so")
Multi-Arch: same" "$ABOUT
 .
 This package has the shared library."

# What is needed to build programs with it.
root=$scratch/libmarkdown-proved-dev
install -D -m644 "$folder/include/markdown.h" "$root/usr/include/markdown-proved/markdown.h"
install -D -m644 "$folder/lib/libmarkdown-proved.a" "$root/usr/lib/$triple/libmarkdown-proved.a"
strip --strip-debug --enable-deterministic-archives "$root/usr/lib/$triple/libmarkdown-proved.a"
ln -s "$soname" "$root/usr/lib/$triple/libmarkdown-proved.so"
mkdir "$root/usr/lib/$triple/pkgconfig"
sed "s|^prefix=.*|prefix=/usr|; s|^libdir=.*|libdir=\${prefix}/lib/$triple|; s|^includedir=.*|includedir=\${prefix}/include/markdown-proved|" \
    "$folder/lib/pkgconfig/markdown-proved.pc" > "$root/usr/lib/$triple/pkgconfig/markdown-proved.pc"
make_package libmarkdown-proved-dev libdevel "proved converter from Markdown to HTML (development files)" "Depends: $package (= $version)
Multi-Arch: same" "$ABOUT
 .
 This package has the header, the static library and the file for pkg-config."
