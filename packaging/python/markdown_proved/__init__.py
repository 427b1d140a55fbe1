"""Markdown to HTML, to events, links and headings, and HTML to a safe page, by a proved converter.

    >>> from markdown_proved import events, is_safe_page, links, outline, sanitize, to_html
    >>> to_html("# Hello, *world*")
    '<h1>Hello, <em>world</em></h1>'
    >>> to_html("~~a~~ www.example.com", gfm=True)
    '<p><del>a</del> <a href="http://www.example.com">www.example.com</a></p>'
    >>> to_html("a[^b]\\n\\n[^b]: c", footnotes=True, prefix="comment-2-").count("comment-2-fn-b")
    2
    >>> is_safe_page("<p onclick=alert()>a</p>")
    False
    >>> [event.text for event in events("# a *b*") if event.enters and event.name == "Emphasis"]
    ['*b*']
    >>> links("[a], ![b](<c d.png>)\\n\\n[a]: /e")
    [<link '/e' 1:1>, <image 'c d.png' 1:6>, <definition '/e' 3:1>]
    >>> [(it.rank, it.text, it.slug, it.line) for it in outline("# One *two*\\n\\n## One two")]
    [(1, 'One two', 'one-two', 1), (2, 'One two', 'one-two-1', 3)]
    >>> sanitize("<p onclick=alert()>a <b>c</p><script>d</script>")
    '<p>a <b>c</b></p>&lt;script&gt;d&lt;/script&gt;'

Without options the input is CommonMark 0.31.2 and the HTML is safe to show: HTML in the input is escaped, and URLs with a protocol
that isn't allowed become empty.

A text is a ``str``, or ``bytes``, ``bytearray`` or ``memoryview`` in UTF-8. What is returned of a ``str`` is ``str``, and of the
others ``bytes``. Offsets always count bytes of UTF-8. Threads may call at the same time; a call doesn't hold the interpreter's lock
while the library works.

Options are keywords, each described in ``ReadOptions`` and ``Options``. Flags may be added up, too: ``to_html(text, GFM | MATH)``.
"""
from __future__ import annotations

import functools
import os
from typing import TYPE_CHECKING, Any, Final, Iterator, List, Union, overload

from ._library import Event, Flags, Heading, Library, Link
from ._library import __version__ as __version__

if TYPE_CHECKING:
    from typing_extensions import Unpack

    from ._library import Options, ReadOptions, SanitizeOptions

__all__ = [
    "to_html", "is_safe_page", "sanitize", "events", "links", "outline", "decode", "normalize_label", "load", "Event", "Link",
    "Heading", "Flags", "Library", "DANGEROUS", "PLAIN", "STRIKETHROUGH", "MATH", "FRONTMATTER", "TASK_LIST_ITEMS", "TABLES", "AUTOLINK_LITERALS", "FOOTNOTES",
    "TAGFILTER", "MARK", "GFM",
]

DANGEROUS: Final = Flags.DANGEROUS
PLAIN: Final = Flags.PLAIN
STRIKETHROUGH: Final = Flags.STRIKETHROUGH
MATH: Final = Flags.MATH
FRONTMATTER: Final = Flags.FRONTMATTER
TASK_LIST_ITEMS: Final = Flags.TASK_LIST_ITEMS
TABLES: Final = Flags.TABLES
AUTOLINK_LITERALS: Final = Flags.AUTOLINK_LITERALS
FOOTNOTES: Final = Flags.FOOTNOTES
TAGFILTER: Final = Flags.TAGFILTER
MARK: Final = Flags.MARK
GFM: Final = Flags.GFM

_Bytes = Union[bytes, bytearray, memoryview]


def load(path: Union[str, "os.PathLike[str]"]) -> Library:
    """Return the shared library at ``path``, which ``./install.sh --library`` makes. Its methods are the functions of this module.

    Raises ImportError if it can't be loaded, is another library, or is of another version than this module.
    """
    return Library(path)


@functools.lru_cache(maxsize=None)
def _own() -> Library:
    """The library in this package."""
    return Library(os.path.join(os.path.dirname(os.path.abspath(__file__)), "libmarkdown-proved.so"))


@overload
def to_html(text: str, flags: int = ..., **options: Unpack[Options]) -> str: ...


@overload
def to_html(text: _Bytes, flags: int = ..., **options: Unpack[Options]) -> bytes: ...


def to_html(text: Union[str, _Bytes], flags: int = 0, **options: Unpack[Options]) -> Any:
    """Return the HTML of ``text``.

    Raises ValueError for wrong flags, for input that isn't UTF-8 and for input that is too large, and MemoryError.
    """
    return _own().to_html(text, flags, **options)


def is_safe_page(page: Union[str, _Bytes]) -> bool:
    """Return whether ``page`` is HTML as the converter prints it without ``dangerous``: known tags, each closed, with known
    attributes, and no script, whatever text it was made of.
    """
    return _own().is_safe_page(page)


@overload
def events(text: str, flags: int = ..., **options: Unpack[ReadOptions]) -> Iterator[Event[str]]: ...


@overload
def events(text: _Bytes, flags: int = ..., **options: Unpack[ReadOptions]) -> Iterator[Event[bytes]]: ...


def events(text: Union[str, _Bytes], flags: int = 0, **options: Unpack[ReadOptions]) -> Any:
    """Return the events of ``text``, in order: what begins and ends where.

    Raises the errors of ``to_html``, before the first event.
    """
    return _own().events(text, flags, **options)


@overload
def links(text: str, flags: int = ..., **options: Unpack[ReadOptions]) -> List[Link[str]]: ...


@overload
def links(text: _Bytes, flags: int = ..., **options: Unpack[ReadOptions]) -> List[Link[bytes]]: ...


def links(text: Union[str, _Bytes], flags: int = 0, **options: Unpack[ReadOptions]) -> Any:
    """Return the links, images, autolinks, literals and definitions of ``text``, in the order in which they start: where each is,
    and where it leads. A link by reference has the destination of its definition.

    Raises the errors of ``to_html``.
    """
    return _own().links(text, flags, **options)


def outline(text: Union[str, _Bytes], flags: int = 0, **options: Unpack[ReadOptions]) -> List[Heading]:
    """Return the headings of ``text``, in the order in which they start, those in quotes, items and footnotes too.

    Raises the errors of ``to_html``.
    """
    return _own().outline(text, flags, **options)


@overload
def sanitize(html: str, **options: Unpack[SanitizeOptions]) -> str: ...


@overload
def sanitize(html: _Bytes, **options: Unpack[SanitizeOptions]) -> bytes: ...


def sanitize(html: Union[str, _Bytes], **options: Unpack[SanitizeOptions]) -> Any:
    """Return what is kept of ``html``, HTML of any origin, by a fixed list of elements and attributes. Other tags are printed as
    text, comments are dropped, and elements that aren't closed are closed. Without options it has no script, and no URL with a
    protocol that isn't allowed. Put it into a block, such as ``<div>``, not into ``<p>`` or ``<span>``.

    Raises ValueError for input that isn't UTF-8 or is too large, and MemoryError.
    """
    return _own().sanitize(html, **options)


@overload
def decode(text: str) -> str: ...


@overload
def decode(text: _Bytes) -> bytes: ...


def decode(text: Union[str, _Bytes]) -> Any:
    """Return what ``text`` stands for as a destination, a title or an info: escapes and character references are replaced, and
    spaces and tabs around line endings are dropped.

    Raises ValueError for input that isn't UTF-8, and MemoryError.
    """
    return _own().decode(text)


@overload
def normalize_label(label: str) -> str: ...


@overload
def normalize_label(label: _Bytes) -> bytes: ...


def normalize_label(label: Union[str, _Bytes]) -> Any:
    """Return the form in which ``label``, without its brackets, matches other labels: with its case folded, and one space for
    white space inside.

    Raises ValueError for input that isn't UTF-8, and MemoryError.
    """
    return _own().normalize_label(label)
