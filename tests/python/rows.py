"""The rows of tests/rows. Its README has their format."""
import collections
import re

from options import TOP

ROWS = TOP / "tests" / "rows"
PICTURE = re.compile("\u241B([0-9A-Fa-f]+);|([\u2400-\u2421])")
# Kinds of files that stand for no file: what is behind the kind are options, and files of pages.
OF_PAGES = ("attributes", "kept", "pairs", "joined", "beside")

Row = collections.namedtuple("Row", "text wanted")
Table = collections.namedtuple("Table", "name ways rows")
File = collections.namedtuple("File", "kind name count tables")


def decoded(source):
    """A source with the characters that its pictures stand for."""

    def meant(found):
        if found[1]:
            return chr(int(found[1], 16))
        return "\x7f" if found[2] == "\u2421" else chr(ord(found[2]) - 0x2400)

    return PICTURE.sub(meant, source)


def rows_of(part):
    for given in part.split("\n@row")[1:]:
        text, _, wanted = given.split("\n", 1)[1].partition("\n@is\n")
        yield Row(text, wanted)


def tables_of(source):
    for part in source.split("\n@table ")[1:]:
        name, ways = part.split("\n", 1)[0].split(" by ")
        yield Table(name, ways.split(" "), list(rows_of(part)))


def file_of(line):
    kind, name, count = re.fullmatch(r"(\w+) (.*) (\d+)", line).groups()
    if kind in OF_PAGES:
        return File(kind, name, int(count), [])
    source = (ROWS / f"{name}.rows").read_bytes().decode().removesuffix("\n")
    return File(kind, name, int(count), list(tables_of(decoded(source))))


FILES = [file_of(line) for line in (ROWS / "files").read_text(encoding="utf-8").splitlines()]


def rows_in(kinds, names=()):
    """The rows of the files of these kinds, of all or of those with these names."""
    return [row for it in FILES if it.kind in kinds and (not names or it.name in names) for table in it.tables for row in table.rows]


def texts_by_options():
    """The texts of pages and examples, each with the options of its table, each pair once."""
    tables = [table for it in FILES if it.kind in ("pages", "examples") for table in it.tables]
    return sorted({(way, row.text) for table in tables for way in table.ways for row in table.rows})
