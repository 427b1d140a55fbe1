"""What holds of the events of a text: their places tile the text, they are balanced, and each that holds no other is a token. Strings,
raw HTML, paragraphs and the texts of headings hold something, and data isn't after data. Raw HTML in a text begins with `<`, and calls of
footnotes hold what a string may hold.

What may be a token of a name is written here a second time, by hand, and not taken from the grammar of events.
"""
import re
import string
import sys

from options import TOP

sys.path.insert(0, str(TOP / "packaging" / "python"))
from markdown_proved._names import EVENT_NAMES  # noqa: E402

NUMBER = {name: number for number, name in enumerate(EVENT_NAMES)}


def void_names():
    """The names of events that hold no other, as the list VOID_EVENTS has them."""
    for file in (TOP / "crates").glob("*/src/event.rt"):
        if found := re.search(r"VOID_EVENTS.*?=\s*&?\[(.*?)\];", file.read_text(encoding="utf-8"), re.S):
            return set(re.findall(r"Name::(\w+)", found[1]))
    sys.exit("no file has the list VOID_EVENTS")


VOID = void_names()
IS_VOID = [name in VOID for name in EVENT_NAMES]
DATA, HTML_TEXT, CALL = NUMBER["Data"], NUMBER["HtmlText"], NUMBER["GfmFootnoteCall"]
# Events that hold something.
FULL = {
    NUMBER[name]
    for name in (
        "Paragraph HeadingAtxText HeadingSetextText HtmlFlow HtmlText CodeFencedFenceInfo CodeFencedFenceMeta MathFlowFenceMeta DefinitionLabelString DefinitionDestinationString "
        "DefinitionTitleString ReferenceString ResourceDestinationString ResourceTitleString"
    ).split()
}
# Events that no string holds.
OUTSIDE_STRINGS = {
    NUMBER[name]
    for name in (
        "Link Image GfmFootnoteCall Emphasis Strong GfmStrikethrough Mark CodeText MathText HtmlText Autolink GfmAutolinkLiteralEmail "
        "GfmAutolinkLiteralMailto GfmAutolinkLiteralProtocol GfmAutolinkLiteralWww GfmAutolinkLiteralXmpp HardBreakEscape HardBreakTrailing "
        "GfmTaskListItemCheck"
    ).split()
}
WHITE, ENDS, ENDINGS = b" \t", b"\n\r", (b"\n", b"\r", b"\r\n")
NOT_IN_LINKS = b" \t\n\r<"
PUNCTUATION = string.punctuation.encode()
ALPHANUMERIC = (string.ascii_letters + string.digits).encode()


def is_made_of(data, some):
    return not data.strip(some)


def has_none_of(data, some):
    return not any(byte in data for byte in some)


def is_address(data):
    return b"@" in data and has_none_of(data, NOT_IN_LINKS)


def is_link(*fronts):
    return lambda data: data.lower().startswith(fronts) and has_none_of(data, NOT_IN_LINKS)


def is_in_a_line(data):
    return has_none_of(data, ENDS)


IN_A_LINE = "Data FrontmatterChunk CodeFlowChunk MathFlowChunk HtmlFlowData CodeTextData MathTextData HtmlTextData".split()
MAY_HAVE = {
    **dict.fromkeys(IN_A_LINE, is_in_a_line),
    "SpaceOrTab": lambda data: is_made_of(data, WHITE),
    "LineEnding": lambda data: data in ENDINGS,
    "BlankLineEnding": lambda data: data in ENDINGS,
    "ByteOrderMark": lambda data: data == b"\xEF\xBB\xBF",
    "ListItemValue": lambda data: len(data) <= 9 and is_made_of(data, b"0123456789"),
    "CharacterReferenceValue": lambda data: len(data) <= 31 and is_made_of(data, ALPHANUMERIC),
    "CharacterEscapeValue": lambda data: len(data) == 1 and data in PUNCTUATION,
    "AutolinkProtocol": lambda data: b":" in data and has_none_of(data, NOT_IN_LINKS),
    "AutolinkEmail": is_address,
    "GfmAutolinkLiteralEmail": is_address,
    "GfmAutolinkLiteralMailto": lambda data: data.startswith(b"mailto:") and is_address(data),
    "GfmAutolinkLiteralXmpp": lambda data: data.startswith(b"xmpp:") and is_address(data),
    "GfmAutolinkLiteralProtocol": is_link(b"http://", b"https://"),
    "GfmAutolinkLiteralWww": is_link(b"www."),
    "GfmTaskListItemValueUnchecked": lambda data: data in (b" ", b"\t", *ENDINGS),
}
ANY_NUMBER = 1 << 60
# A token that is one byte repeated: the bytes that it may be of, and how many there may be at least and at most.
RUNS = {
    name: (marks, least, most)
    for names, marks, least, most in [
        ("BlockQuoteMarker", b">", 1, 1),
        ("ListItemMarker", b"-+*.)", 1, 1),
        ("GfmFootnoteDefinitionLabelMarker DefinitionLabelMarker LabelMarker ReferenceMarker GfmTaskListItemMarker", b"[]", 1, 1),
        ("GfmFootnoteDefinitionMarker GfmFootnoteCallMarker", b"^", 1, 1),
        ("LabelImageMarker", b"!", 1, 1),
        ("DefinitionMarker GfmTableDelimiterMarker", b":", 1, 1),
        ("DefinitionDestinationLiteralMarker ResourceDestinationLiteralMarker AutolinkMarker", b"<>", 1, 1),
        ("DefinitionTitleMarker ResourceTitleMarker", b"\"'()", 1, 1),
        ("ResourceMarker", b"()", 1, 1),
        ("CharacterEscapeMarker HardBreakEscape", b"\\", 1, 1),
        ("CharacterReferenceMarker", b"&", 1, 1),
        ("CharacterReferenceMarkerNumeric", b"#", 1, 1),
        ("CharacterReferenceMarkerHexadecimal GfmTaskListItemValueChecked", b"xX", 1, 1),
        ("CharacterReferenceMarkerSemi", b";", 1, 1),
        ("GfmTableCellDivider", b"|", 1, 1),
        ("EmphasisSequence", b"*_", 1, 1),
        ("StrongSequence", b"*_", 2, 2),
        ("MarkSequence", b"=", 2, 2),
        ("GfmStrikethroughSequence", b"~", 1, 2),
        ("FrontmatterSequence", b"-+", 3, 3),
        ("HardBreakTrailing", b" ", 2, ANY_NUMBER),
        ("MathFlowFenceSequence", b"$", 2, ANY_NUMBER),
        ("CodeFencedFenceSequence", b"`~", 3, ANY_NUMBER),
        ("CodeTextSequence", b"`", 1, ANY_NUMBER),
        ("MathTextSequence", b"$", 1, ANY_NUMBER),
        ("ThematicBreakSequence", b"*-_", 1, ANY_NUMBER),
        ("HeadingAtxSequence", b"#", 1, ANY_NUMBER),
        ("HeadingSetextUnderlineSequence", b"=-", 1, ANY_NUMBER),
        ("GfmTableDelimiterFiller", b"-", 1, ANY_NUMBER),
    ]
    for name in names.split()
}
# What was found before of a name and its bytes.
known = {}


def may_be(name, data):
    """Whether bytes may be a token of a name."""
    if name in MAY_HAVE:
        return MAY_HAVE[name](data)
    if name not in RUNS or not data:
        return False
    marks, least, most = RUNS[name]
    return data[:1] in marks and data == data[:1] * len(data) and least <= len(data) <= most


def is_token(name, data):
    if (name, data) not in known:
        try:
            data.decode()
            known[name, data] = may_be(name, data)
        except UnicodeDecodeError:
            known[name, data] = False
    return known[name, data]


def fault_of(data, events):
    """What is wrong with the events of bytes, or None."""
    if not events:
        return "no events" if data else None
    first, last = events[0], events[-1]
    if first[:3] != (0, 1, 1) or first[5] or last[0] != len(data) or last[5]:
        return "the places of the first or the last event"
    names, before, in_call = [], first, False
    for event in events:
        offset, _, _, name, is_exit, columns, _ = event
        if not is_exit:
            names.append(name)
        elif not names or names.pop() != name:
            return f"the exit of {EVENT_NAMES[name]}"
        if offset != before[0] or columns != before[5]:
            if before[4] or not is_exit or name != before[3] or not IS_VOID[name] or (offset, columns) < (before[0], before[5]):
                return f"the place of {EVENT_NAMES[name]}"
            token = data[before[0] + (before[5] > 0) : offset + (columns > 0)]
            if not is_token(EVENT_NAMES[name], token):
                return f"{EVENT_NAMES[name]} of {token!r}"
        elif is_exit and not before[4] and IS_VOID[name]:
            return f"{EVENT_NAMES[name]} of no bytes"
        if is_exit and not before[4] and name in FULL:
            return f"{EVENT_NAMES[name]} with nothing in it"
        if not is_exit and before[4] and name == DATA == before[3]:
            return "data after data"
        if not before[4] and before[3] == HTML_TEXT and data[offset : offset + 1] != b"<":
            return "HtmlText that doesn't begin with `<`"
        if in_call and not is_exit and name in OUTSIDE_STRINGS:
            return f"{EVENT_NAMES[name]} in a call of a footnote"
        if name == CALL:
            in_call = not is_exit
        before = event
    return f"{EVENT_NAMES[names[0]]} without an exit" if names else None


def listed(source):
    """The events of a list as rows have it: `+` is an enter, `-` an exit, a number the offset, and one after `.` the columns of the tab
    there that are before. All lines and columns are 1."""
    found = re.findall(r"([+-])(\w+):(\d+)(?:\.(\d+))?", source)
    return [(int(offset), 1, 1, NUMBER[name], int(sign == "-"), int(columns or 0), 0) for sign, name, offset, columns in found]
