"""The shared library, by ctypes."""
from __future__ import annotations

import ctypes
import enum
import os
import struct
from typing import Any, AnyStr, Final, FrozenSet, Generic, Iterator, List, Mapping, Optional, Tuple, TypedDict, Union

from ._names import EVENT_NAMES

__version__: Final = "0.1.0"

_Text = Union[str, bytes, bytearray, memoryview]


class Flags(enum.IntFlag):
    """What differs from safe CommonMark, to be added up. The keywords of ``ReadOptions`` and ``Options`` say what each does."""

    DANGEROUS = 1
    PLAIN = 2
    STRIKETHROUGH = 4
    MATH = 8
    FRONTMATTER = 16
    TASK_LIST_ITEMS = 32
    TABLES = 64
    AUTOLINK_LITERALS = 128
    FOOTNOTES = 256
    TAGFILTER = 512
    MARK = 1024
    GFM = STRIKETHROUGH | TASK_LIST_ITEMS | TABLES | AUTOLINK_LITERALS | FOOTNOTES | TAGFILTER


class ReadOptions(TypedDict, total=False):
    """How a text is read. A construct that isn't given is on if CommonMark has it, or if a flag turns it on."""

    plain: bool  # turn every construct off: the input is paragraphs; this wins over the flags below
    gfm: bool  # what GitHub turns on: strikethrough, task list items, tables, links, footnotes, tag filter
    strikethrough: bool  # ``~~a~~`` and ``~a~`` are struck through
    math: bool  # ``$a$`` is math, and so is a block between lines of ``$$``
    frontmatter: bool  # skip metadata at the start, between lines of ``---`` or of ``+++``
    task_list_items: bool  # an item that begins with ``[ ]`` or ``[x]`` has a check box
    tables: bool  # a row of delimiters below a line, as ``| - | - |``, makes a table
    autolink_literals: bool  # ``www.a.b``, ``https://a.b`` and ``a@b.c`` are links
    footnotes: bool  # ``[^a]`` calls the footnote that ``[^a]: b`` defines
    mark: bool  # ``==a==`` is marked text
    single_tilde: bool  # one tilde strikes text, as in ``~a~``; on by default
    single_dollar: bool  # one dollar makes math, as in ``$a$``; on by default
    attention: bool
    autolink: bool
    block_quote: bool
    character_escape: bool
    character_reference: bool
    code_indented: bool
    code_fenced: bool
    code_text: bool
    definition: bool
    gfm_autolink_literal: bool
    gfm_footnote_definition: bool
    gfm_label_start_footnote: bool
    gfm_strikethrough: bool
    gfm_table: bool
    gfm_task_list_item: bool
    hard_break_escape: bool
    hard_break_trailing: bool
    heading_atx: bool
    heading_setext: bool
    html_flow: bool
    html_text: bool
    label_start_image: bool
    label_start_link: bool
    label_end: bool
    list_item: bool
    math_flow: bool
    math_text: bool
    thematic_break: bool


class Options(ReadOptions, total=False):
    """How a text is read, and how its HTML is printed."""

    dangerous: bool  # keep HTML and every protocol of the input; only for input from trusted authors
    dangerous_html: bool  # keep HTML of the input
    dangerous_protocol: bool  # keep every protocol of links and images
    any_image_protocol: bool  # keep every protocol of images
    tagfilter: bool  # with HTML that is kept: escape ``<`` before nine names, as ``script``
    checkable_tasks: bool  # check boxes of items aren't disabled
    prefix: str  # what the ids of footnotes begin with: ``user-content-``
    footnote_label: str  # the heading above footnotes: ``Footnotes``
    footnote_label_tag: str  # its tag name, printed as given: ``h2``
    footnote_label_attributes: str  # its attributes, printed as given: ``class="sr-only"``
    footnote_back_label: str  # the label of the link from a footnote to its call: ``Back to content``
    heading_ids: bool  # headings have ids, as GitHub makes them
    heading_id_prefix: str  # what these ids, and links to fragments of the page, begin with if headings have ids: nothing
    link_base: str  # what is printed before destinations of links that are relative paths: nothing
    image_base: str  # the same for images; if it is empty, it is ``link_base``
    link_rel: str  # the ``rel`` of links, except those of footnotes; if it is empty, they have none
    lazy_images: bool  # images have ``loading="lazy"``
    listed_html: bool  # keep HTML of the input by a list of elements and attributes; with ``dangerous_html`` all of it is kept
    line_ending: str  # what ends a line of the HTML if the input has no line ending: ``\n``, ``\r`` or ``\r\n``


class SanitizeOptions(TypedDict, total=False):
    """Which URLs are kept of HTML. By default only those with a permitted protocol or none."""

    dangerous_protocol: bool  # keep every protocol of links and images
    any_image_protocol: bool  # keep every protocol of images


class Event(Generic[AnyStr]):
    """Something begins or ends at a point of a text."""

    __slots__ = ("name", "enters", "offset", "line", "column", "columns", "_list", "_index")
    name: str  # what begins or ends: ``Paragraph``, ..
    enters: bool  # whether it begins
    offset: int  # how many bytes of the text are before
    line: int  # the line, from 1
    column: int  # the column, from 1: a byte takes one, a tab goes to the next stop
    columns: int  # within the tab at ``offset``: how many of its columns are before; otherwise 0

    def __init__(self, events: _Events, index: int, fields: Tuple[int, int, int, int, int, int]) -> None:
        self.offset, self.line, self.column, name, kind, self.columns = fields
        self.name = EVENT_NAMES[name]
        self.enters = kind == 0
        self._list = events
        self._index = index

    @property
    def kind(self) -> str:
        """``enter`` or ``exit``."""
        return "enter" if self.enters else "exit"

    @property
    def text(self) -> AnyStr:
        """What is between the enter and the exit: str of a str, otherwise bytes."""
        other = self._list.offset_of_other(self._index)
        return self._list.text.part(min(self.offset, other), max(self.offset, other))

    def __repr__(self) -> str:
        return f"<{self.kind} {self.name} {self.line}:{self.column}>"


class Link(Generic[AnyStr]):
    """A link, an image, or a definition of where a label leads."""

    __slots__ = ("kind", "destination", "definition", "offset", "line", "column", "end_offset", "end_line", "end_column", "_text")
    kind: str  # ``link``, ``image``, ``autolink`` (``<a:b>``), ``literal`` (``www.a.b``) or ``definition`` (``[a]: b``)
    destination: str  # where it leads, not percent-encoded; ``mailto:`` is before an email address, ``http://`` before ``www.``
    definition: Optional[Link[AnyStr]]  # for a link or an image by reference: the definition that its label leads to
    offset: int  # where it begins, as in ``Event``
    line: int
    column: int
    end_offset: int  # where it ends
    end_line: int
    end_column: int

    def __init__(self, text: _Given, destination: str, fields: Tuple[int, ...]) -> None:
        self.offset, self.line, self.column, self.end_offset, self.end_line, self.end_column = fields[:6]
        self.kind = _KINDS[fields[10]]
        self.destination = destination
        self.definition = None
        self._text = text

    @property
    def text(self) -> AnyStr:
        """The link as it is written: str of a str, otherwise bytes."""
        return self._text.part(self.offset, self.end_offset)

    def __repr__(self) -> str:
        return f"<{self.kind} {self.destination!r} {self.line}:{self.column}>"


class Heading:
    """A heading."""

    __slots__ = ("rank", "text", "slug", "offset", "line", "column", "end_offset", "end_line", "end_column")
    rank: int  # from 1 to 6
    text: str  # what it says: without tags and images, with escapes and character references replaced
    slug: str  # what GitHub uses as its id; no other heading of the text has it; may be empty
    offset: int  # where it begins, as in ``Event``
    line: int
    column: int
    end_offset: int  # where it ends
    end_line: int
    end_column: int

    def __init__(self, texts: bytes, fields: Tuple[int, ...]) -> None:
        self.offset, self.line, self.column, self.end_offset, self.end_line, self.end_column = fields[:6]
        text, text_size, slug, slug_size, self.rank = fields[7:]
        self.text = texts[text:text + text_size].decode()
        self.slug = texts[slug:slug + slug_size].decode()

    def __repr__(self) -> str:
        return f"<heading {self.rank} {self.text!r} {self.line}:{self.column}>"


_OK, _ROOM, _UTF8, _FLAGS, _SIZE, _MEMORY = range(6)
_FAULTS: Final = {_UTF8: "input is not UTF-8", _FLAGS: "wrong flags", _SIZE: "input is too large"}

_KINDS: Final = ("link", "image", "autolink", "literal", "definition")
_NO_DEFINITION: Final = 2**64 - 1

# A struct markdown_event, a struct markdown_link, a struct markdown_heading, and a byte.
_EVENT: Final = struct.Struct("=QQQHBB4x")
_LINK: Final = struct.Struct("=10QB7x")
_HEADING: Final = struct.Struct("=11QB7x")
_BYTE: Final = struct.Struct("=B")

# (That of GitHub comes first, so that the others may turn off what it turns on.)
_FLAG_NAMES: Final = {"gfm": Flags.GFM, **{flag.name.lower(): flag for flag in Flags if flag.name}}
# The constructs of the struct markdown_options, in the order of their numbers.
_CONSTRUCTS: Final = """
    attention autolink block_quote character_escape character_reference code_indented code_fenced code_text definition frontmatter
    gfm_autolink_literal gfm_footnote_definition gfm_label_start_footnote gfm_strikethrough gfm_table gfm_task_list_item
    hard_break_escape hard_break_trailing heading_atx heading_setext html_flow html_text label_start_image label_start_link
    label_end list_item mark math_flow math_text thematic_break
""".split()
_CONSTRUCT_NUMBERS: Final = {name: 1 << place for place, name in enumerate(_CONSTRUCTS)}
_CONSTRUCT_KEYWORDS: Final = {name: number for name, number in _CONSTRUCT_NUMBERS.items() if name not in _FLAG_NAMES}
# The switches of that struct, in the order of their numbers.
_SWITCHES: Final = (
    "any_image_protocol", "dangerous_html", "dangerous_protocol", "tagfilter", "checkable_tasks", "single_tilde", "single_dollar",
    "heading_ids", "lazy_images", "listed_html",
)
_SWITCH_NUMBERS: Final = {name: 1 << place for place, name in enumerate(_SWITCHES)}
_CORE: Final = sum(
    number for name, number in _CONSTRUCT_NUMBERS.items()
    if not name.startswith(("gfm_", "math_")) and name not in ("frontmatter", "mark")
)
# The constructs that a flag turns on.
_OF_FLAGS: Final = {
    Flags.STRIKETHROUGH: ("gfm_strikethrough",),
    Flags.MATH: ("math_flow", "math_text"),
    Flags.FRONTMATTER: ("frontmatter",),
    Flags.TASK_LIST_ITEMS: ("gfm_task_list_item",),
    Flags.TABLES: ("gfm_table",),
    Flags.AUTOLINK_LITERALS: ("gfm_autolink_literal",),
    Flags.FOOTNOTES: ("gfm_footnote_definition", "gfm_label_start_footnote"),
    Flags.MARK: ("mark",),
}
_LINE_ENDINGS: Final = {"\n": 0, "\r": 1, "\r\n": 2}


class _String(ctypes.Structure):
    _fields_ = [("data", ctypes.c_char_p), ("size", ctypes.c_size_t)]


class _Options(ctypes.Structure):
    """The struct markdown_options."""

    _fields_ = [
        ("size", ctypes.c_size_t),
        ("constructs", ctypes.c_uint64),
        ("switches", ctypes.c_uint32),
        ("line_ending", ctypes.c_uint32),
        ("footnote_back_label", _String),
        ("prefix", _String),
        ("footnote_label", _String),
        ("footnote_label_attributes", _String),
        ("footnote_label_tag", _String),
        ("heading_id_prefix", _String),
        ("link_base", _String),
        ("image_base", _String),
        ("link_rel", _String),
    ]


_DEFAULT_TEXTS: Final = {
    "footnote_back_label": "Back to content",
    "prefix": "user-content-",
    "footnote_label": "Footnotes",
    "footnote_label_attributes": 'class="sr-only"',
    "footnote_label_tag": "h2",
    "heading_id_prefix": "",
    "link_base": "",
    "image_base": "",
    "link_rel": "",
}
# Keywords that only the HTML depends on.
_PRINTING: Final = frozenset({
    "dangerous", "dangerous_html", "dangerous_protocol", "any_image_protocol", "tagfilter", "checkable_tasks", "heading_ids",
    "lazy_images", "listed_html", "line_ending", *_DEFAULT_TEXTS,
})
# Keywords that sanitized HTML doesn't depend on.
_NOT_SANITIZING: Final = frozenset({
    *_FLAG_NAMES, *_CONSTRUCT_NUMBERS, *_SWITCH_NUMBERS, *_PRINTING,
}) - frozenset(SanitizeOptions.__annotations__)


def _wrong_type(name: str, wanted: str, value: object) -> TypeError:
    return TypeError(f"{name} must be {wanted}, not {type(value).__name__}")


def _flags_of(call: str, flags: int, options: Mapping[str, Any], unknown: FrozenSet[str]) -> int:
    """The sum of flags with those that are given as keywords."""
    if not isinstance(flags, int):
        raise _wrong_type("flags", "an int", flags)
    if not 0 <= flags < 2 * Flags.MARK:
        raise ValueError(_FAULTS[_FLAGS])
    for name, value in options.items():
        if name in unknown:
            raise TypeError(f"{call}() got an unexpected keyword argument {name!r}")
        if name in _FLAG_NAMES or name in _CONSTRUCT_NUMBERS or name in _SWITCH_NUMBERS:
            if not isinstance(value, bool):
                raise _wrong_type(name, "a bool", value)
        elif name in _DEFAULT_TEXTS or name == "line_ending":
            if not isinstance(value, str):
                raise _wrong_type(name, "a str", value)
        else:
            raise TypeError(f"{call}() got an unexpected keyword argument {name!r}")
    for name, flag in _FLAG_NAMES.items():
        given = options.get(name)
        if given is not None:
            flags = flags | flag if given else flags & ~flag
    return flags


def _switched(number: int, numbers: Mapping[str, int], options: Mapping[str, Any]) -> int:
    """A sum of numbers, with those that are given as keywords turned on or off."""
    for name, value in options.items():
        if name in numbers:
            number = number | numbers[name] if value else number & ~numbers[name]
    return number


def _options_of(call: str, flags: int, options: Mapping[str, Any], unknown: FrozenSet[str] = frozenset()) -> _Options:
    """The options of flags and keywords. Those that are unknown to the call are refused."""
    flags = _flags_of(call, flags, options, unknown)
    constructs = 0
    if not flags & Flags.PLAIN:
        constructs = _CORE + sum(_CONSTRUCT_NUMBERS[name] for flag, names in _OF_FLAGS.items() if flags & flag for name in names)
    switches = _SWITCH_NUMBERS["single_tilde"] + _SWITCH_NUMBERS["single_dollar"]
    if flags & Flags.DANGEROUS:
        switches += _SWITCH_NUMBERS["dangerous_html"] + _SWITCH_NUMBERS["dangerous_protocol"]
    if flags & Flags.TAGFILTER:
        switches += _SWITCH_NUMBERS["tagfilter"]
    ending = options.get("line_ending", "\n")
    if ending not in _LINE_ENDINGS:
        raise ValueError("line_ending must be '\\n', '\\r' or '\\r\\n'")
    given = _Options(
        ctypes.sizeof(_Options), _switched(constructs, _CONSTRUCT_KEYWORDS, options), _switched(switches, _SWITCH_NUMBERS, options),
        _LINE_ENDINGS[ending],
    )
    for name, default in _DEFAULT_TEXTS.items():
        data = options.get(name, default).encode()
        setattr(given, name, _String(data, len(data)))
    return given


class _Given:
    """A text as it was given, in UTF-8."""

    def __init__(self, name: str, text: _Text) -> None:
        self.is_str = isinstance(text, str)
        if isinstance(text, str):
            self.data = text.encode()
        elif isinstance(text, (bytes, bytearray, memoryview)):
            self.data = bytes(text)
        else:
            raise _wrong_type(name, "str, bytes, bytearray or memoryview", text)

    def returned(self, data: bytes) -> Any:
        return data.decode() if self.is_str else data

    def part(self, start: int, end: int) -> Any:
        return self.returned(self.data[start:end])


class _Array:
    """An array that a call fills."""

    def __init__(self, item: struct.Struct, room: int) -> None:
        self._item = item
        self._room = room
        self._used = ctypes.c_size_t(0)
        self._buffer: Any = None

    def arguments(self) -> Tuple[Any, int, Any]:
        """What is passed of it. It has grown if it was too small."""
        if self._buffer is None or self._used.value > self._room:
            self._room = max(self._room, self._used.value)
            self._buffer = ctypes.create_string_buffer(self._room * self._item.size)
        return self._buffer, self._room, ctypes.byref(self._used)

    def data(self) -> bytes:
        return ctypes.string_at(self._buffer, self._used.value * self._item.size)


class _Events:
    """The events of a text."""

    def __init__(self, text: _Given, array: bytes) -> None:
        self.text = text
        self._array = array
        self._others: List[int] = []

    def __iter__(self) -> Iterator[Event[Any]]:
        return (Event(self, index, fields) for index, fields in enumerate(_EVENT.iter_unpack(self._array)))

    def offset_of_other(self, index: int) -> int:
        """The offset of the exit of an enter, and the other way round. All are found when the first is asked for."""
        if not self._others:
            entered: List[Tuple[int, int]] = []
            self._others = [0] * (len(self._array) // _EVENT.size)
            for place, (offset, _, _, _, is_exit, _) in enumerate(_EVENT.iter_unpack(self._array)):
                if is_exit:
                    start, self._others[place] = entered.pop()
                    self._others[start] = offset
                else:
                    entered.append((place, offset))
        return self._others[index]


def _links_of(text: _Given, array: bytes, destinations: bytes) -> List[Link[Any]]:
    """The links of a text, by the structs of all, and the bytes of their destinations. A reference shares that of its definition."""
    links: List[Link[Any]] = []
    references: List[Tuple[Link[Any], int]] = []
    for fields in _LINK.iter_unpack(array):
        start, size, definition = fields[7:10]
        is_reference = definition != _NO_DEFINITION
        link: Link[Any] = Link(text, "" if is_reference else destinations[start:start + size].decode(), fields)
        links.append(link)
        if is_reference:
            references.append((link, definition))
    for link, definition in references:
        link.definition = links[definition]
        link.destination = links[definition].destination
    return links


class Library:
    """A shared library with the calls of markdown.h. Its methods are described at the functions of the module."""

    version: str
    _convert_with: Any
    _list_events_with: Any
    _list_links_with: Any
    _list_outline_with: Any
    _sanitize_with: Any
    _decode: Any
    _normalize_label: Any
    _check_page: Any

    def __init__(self, path: Union[str, "os.PathLike[str]"]) -> None:
        name = os.fspath(path)
        try:
            library = ctypes.CDLL(os.path.abspath(name))
        except OSError as fault:
            raise ImportError(f"cannot load the library: {fault}", path=name) from fault
        try:
            self._use(library, name)
        except AttributeError as fault:
            raise ImportError(f"this is another library: {fault}", path=name) from fault

    def _use(self, library: ctypes.CDLL, path: str) -> None:
        """Finds the calls, each of which a library of this version has."""
        library.markdown_version.restype = ctypes.c_uint32
        library.markdown_version.argtypes = []
        self.version = ".".join(str(part) for part in library.markdown_version().to_bytes(4, "big")[1:])
        # Below 1.0 each minor version may have other calls.
        if self.version.split(".")[:2] != __version__.split(".")[:2]:
            raise ImportError(f"{path} is version {self.version}, and this module needs {__version__}", path=path)
        size, number = ctypes.c_size_t, ctypes.c_uint32
        out, text, options = [ctypes.c_void_p, size, ctypes.POINTER(size)], [ctypes.c_char_p, size], ctypes.POINTER(_Options)
        for name, arguments in (
            ("convert_with", [*text, options, *out]),
            ("list_events_with", [*text, options, *out]),
            ("list_links_with", [*text, options, *out, *out]),
            ("list_outline_with", [*text, options, *out, *out]),
            ("sanitize_with", [*text, options, *out]),
            ("decode", [*text, *out]),
            ("normalize_label", [*text, *out]),
            ("check_page", [*text, ctypes.POINTER(number)]),
        ):
            call = getattr(library, f"markdown_{name}")
            call.restype = number
            call.argtypes = arguments
            setattr(self, f"_{name}", call)

    def to_html(self, text: _Text, flags: int = 0, **options: Any) -> Any:
        given = _Given("text", text)
        page = _Array(_BYTE, len(given.data) + len(given.data) // 4 + 64)
        self._call(self._convert_with, given.data, _options_of("to_html", flags, options), page)
        return given.returned(page.data())

    def is_safe_page(self, page: _Text) -> bool:
        data = _Given("page", page).data
        is_safe = ctypes.c_uint32()
        if self._check_page(data, len(data), ctypes.byref(is_safe)) != _OK:
            raise MemoryError
        return is_safe.value == 1

    def events(self, text: _Text, flags: int = 0, **options: Any) -> Any:
        given = _Given("text", text)
        array = _Array(_EVENT, len(given.data) // 2 + 64)  # READMEs have an event for three bytes
        self._call(self._list_events_with, given.data, _options_of("events", flags, options, _PRINTING), array)
        return iter(_Events(given, array.data()))

    def links(self, text: _Text, flags: int = 0, **options: Any) -> Any:
        given = _Given("text", text)
        array, destinations = _Array(_LINK, len(given.data) // 64 + 16), _Array(_BYTE, len(given.data) // 2 + 64)
        self._call(self._list_links_with, given.data, _options_of("links", flags, options, _PRINTING), array, destinations)
        return _links_of(given, array.data(), destinations.data())

    def outline(self, text: _Text, flags: int = 0, **options: Any) -> List[Heading]:
        given = _Given("text", text)
        array, texts = _Array(_HEADING, len(given.data) // 64 + 16), _Array(_BYTE, len(given.data) // 4 + 64)
        self._call(self._list_outline_with, given.data, _options_of("outline", flags, options, _PRINTING), array, texts)
        data = texts.data()
        return [Heading(data, fields) for fields in _HEADING.iter_unpack(array.data())]

    def sanitize(self, html: _Text, **options: Any) -> Any:
        return self._changed(self._sanitize_with, _Given("html", html), _options_of("sanitize", 0, options, _NOT_SANITIZING))

    def decode(self, text: _Text) -> Any:
        return self._changed(self._decode, _Given("text", text))

    def normalize_label(self, label: _Text) -> Any:
        return self._changed(self._normalize_label, _Given("label", label))

    def _changed(self, call: Any, given: _Given, options: Optional[_Options] = None) -> Any:
        room = _Array(_BYTE, len(given.data) + len(given.data) // 4 + 64)
        self._call(call, given.data, options, room)
        return given.returned(room.data())

    @staticmethod
    def _call(call: Any, data: bytes, options: Optional[_Options], *arrays: _Array) -> None:
        """Calls with arrays that grow until they have room."""
        given: List[Any] = [data, len(data)] + ([] if options is None else [ctypes.byref(options)])
        status = _ROOM
        while status == _ROOM:
            status = call(*given, *(argument for array in arrays for argument in array.arguments()))
        if status == _MEMORY:
            raise MemoryError
        if status != _OK:
            raise ValueError(_FAULTS[status])
