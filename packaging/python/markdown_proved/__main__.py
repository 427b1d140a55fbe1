"""Reads Markdown from a file or from standard input, and writes its HTML to standard output.

    python -m markdown_proved [--gfm] [--mark] [--math] [--frontmatter] [--heading-ids] [--heading-id-prefix TEXT] [--link-base URL]
        [--image-base URL] [--link-rel TEXT] [--lazy-images] [--listed-html] [--dangerous] [--plain] [FILE]

The words are those of the program for Debian, but for `--references`. That for Node has those without a value. The exit status is 0 if the whole HTML was written, 2 for a wrong command line, and 1 for any other fault.
"""
import argparse
import sys

from . import DANGEROUS, FRONTMATTER, GFM, MARK, MATH, PLAIN, __version__, to_html

FLAGS = {
    "gfm": (GFM, "read GitHub Flavored Markdown"),
    "mark": (MARK, "read ==text== as marked text"),
    "math": (MATH, "read $a$, and blocks between lines of $$, as math"),
    "frontmatter": (FRONTMATTER, "leave out metadata at the start of the input, between lines of --- or +++"),
    "dangerous": (DANGEROUS, "keep raw HTML and URLs with any protocol; only for input from trusted authors"),
    "plain": (PLAIN, "turn every construct off, also with other options"),
}
# Words that are options of `to_html`, with the names of these, and those with a value.
SWITCHES = {
    "heading-ids": ("heading_ids", "print ids of headings, as GitHub makes them"),
    "lazy-images": ("lazy_images", 'print loading="lazy" in images'),
    "listed-html": ("listed_html", "keep raw HTML by a list of elements and attributes, and escape the rest; --dangerous keeps all of it"),
}
TEXTS = {
    "heading_id_prefix": ("TEXT", "print a text before these ids, and in links to them"),
    "link_base": ("URL", "print a URL before links that are relative paths"),
    "image_base": ("URL", "print a URL before images that are relative paths; without this option that of --link-base is printed"),
    "link_rel": ("TEXT", 'print rel="TEXT" in links'),
}


def arguments() -> argparse.Namespace:
    """The command line. If it is wrong, or asks for help or the version, the process ends."""
    parser = argparse.ArgumentParser(
        "markdown_proved", description="Converts Markdown to safe HTML on standard output.", allow_abbrev=False
    )
    for name, (_, meaning) in FLAGS.items():
        parser.add_argument(f"--{name}", action="store_true", help=meaning)
    for word, (name, meaning) in SWITCHES.items():
        parser.add_argument(f"--{word}", dest=name, action="store_true", help=meaning)
    for name, (value, meaning) in TEXTS.items():
        parser.add_argument("--" + name.replace("_", "-"), metavar=value, default="", help=meaning)
    parser.add_argument("-V", "--version", action="version", version=f"%(prog)s {__version__}", help="print the version")
    parser.add_argument("file", metavar="FILE", nargs="?", default="-", help="the file to read; - is standard input")
    return parser.parse_args()


def read(name: str) -> bytes:
    """All bytes of the file, or of standard input."""
    is_input = name == "-"
    with open(0 if is_input else name, "rb", closefd=not is_input) as file:
        return file.read()


def write(html: bytes) -> None:
    """Writes to standard output. Closes the buffer, so that nothing is left to write when the process ends."""
    with open(1, "wb", closefd=False) as out:
        out.write(html)


def convert(words: argparse.Namespace) -> str:
    """Converts, and returns the fault, or nothing."""
    flags = sum(flag for name, (flag, _) in FLAGS.items() if getattr(words, name))
    try:
        text = read(words.file)
    except OSError:
        return "cannot read"
    try:
        options = [name for name, _ in SWITCHES.values()] + [*TEXTS]
        page = to_html(text, flags, **{name: getattr(words, name) for name in options})
    except (ImportError, ValueError) as fault:
        return str(fault)
    try:
        write(page)
    except OSError:
        return "cannot write"
    return ""


def main() -> int:
    words = arguments()
    try:
        fault = convert(words)
    except MemoryError:
        fault = "out of memory"
    if fault:
        print(f"markdown_proved: {fault}", file=sys.stderr)
        return 1
    return 0


sys.exit(main())
