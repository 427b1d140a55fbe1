"""Tries the calls of the installed module. The last line is ``N passed, M failed``.

    python calls.py
"""
import _ctypes
import sys
from typing import Any, Callable, Type

import markdown_proved
from markdown_proved import GFM, MATH, Flags, decode, events, is_safe_page, links, normalize_label, outline, sanitize, to_html

passed = failed = 0


def check(what: str, found: object, wanted: object) -> None:
    global passed, failed
    if found == wanted:
        passed += 1
    else:
        failed += 1
        print(f"failed: {what}: {found!r}, not {wanted!r}", file=sys.stderr)


def fault(call: Callable[..., Any], *arguments: Any, **options: Any) -> "tuple[Type[BaseException], str]":
    """The kind and the words of the error that a call raises."""
    try:
        call(*arguments, **options)
    except Exception as error:
        return type(error), str(error)
    return BaseException, "no error"


for text in ("~~a~~", b"~~a~~", bytearray(b"~~a~~"), memoryview(b"~~a~~")):
    wanted = "<p><del>a</del></p>"
    check(f"a {type(text).__name__}", to_html(text, gfm=True), wanted if isinstance(text, str) else wanted.encode())
check("a view with gaps", to_html(memoryview(b"a-b-c")[::2]), b"<p>abc</p>")
check("an empty text", to_html(""), "")
check("a page far longer than its text", to_html('"' * 1000), f"<p>{'&quot;' * 1000}</p>")
check("flags", to_html("~~a~~ $b$", GFM | MATH), '<p><del>a</del> <code class="language-math math-inline">b</code></p>')
check("a flag that is turned off", to_html("~~a~~", GFM, strikethrough=False), "<p>~~a~~</p>")
check("a keyword beside gfm", to_html("~~a~~\n\na | b\n-|-", gfm=True, tables=False), "<p><del>a</del></p>\n<p>a | b\n-|-</p>")
check("dangerous", to_html("a <b>", dangerous=True), "<p>a <b></p>")
check("plain", to_html("*a*", plain=True), "<p>*a*</p>")
check("the sum of GitHub", int(Flags.GFM), 996)

CALLS = ((to_html, "to_html"), (events, "events"), (links, "links"), (outline, "outline"))
for call, name in CALLS:
    check(f"{name}: a wrong type", fault(call, 3), (TypeError, "text must be str, bytes, bytearray or memoryview, not int"))
    check(f"{name}: a wrong keyword", fault(call, "", gmf=True), (TypeError, f"{name}() got an unexpected keyword argument 'gmf'"))
    check(f"{name}: a wrong value", fault(call, "", gfm=1), (TypeError, "gfm must be a bool, not int"))
    check(f"{name}: flags of a wrong type", fault(call, "", "gfm"), (TypeError, "flags must be an int, not str"))
    check(f"{name}: wrong flags", fault(call, "", 2048), (ValueError, "wrong flags"))
    check(f"{name}: no UTF-8", fault(call, b"\xff"), (ValueError, "input is not UTF-8"))

check("a construct that is off", to_html("# a\n\n*b*", heading_atx=False), "<p># a</p>\n<p><em>b</em></p>")
check("a construct beside plain", to_html("# *a*", plain=True, heading_atx=True), "<h1>*a*</h1>")
check("half of math", to_html("$a$", math=True, math_text=False), "<p>$a$</p>")
check("one tilde", to_html("~a~", strikethrough=True, single_tilde=False), "<p>~a~</p>")
check("HTML without protocols", to_html("<b> [c](d:e)", dangerous_html=True), '<p><b> <a href="">c</a></p>')
check("images of any protocol", to_html("![a](b:c)", any_image_protocol=True), '<p><img src="b:c" alt="a" /></p>')
check("checkable tasks", to_html("- [ ] a", gfm=True, checkable_tasks=True), '<ul>\n<li><input type="checkbox" /> a</li>\n</ul>')
check("a line ending", to_html("- a", line_ending="\r\n"), "<ul>\r\n<li>a</li>\r\n</ul>")
check("a wrong line ending", fault(to_html, "", line_ending="\v"), (ValueError, "line_ending must be '\\n', '\\r' or '\\r\\n'"))
check("a text of a wrong type", fault(to_html, "", prefix=b"a"), (TypeError, "prefix must be a str, not bytes"))
check("an option of the page alone", fault(events, "", prefix="a"), (TypeError, "events() got an unexpected keyword argument 'prefix'"))
notes = to_html(
    "a[^b]\n\n[^b]: c", footnotes=True, prefix="1-", footnote_label="N", footnote_label_tag="h3", footnote_label_attributes="",
    footnote_back_label="back",
)
attributes = to_html(
    "# a\n\n[b](#a) [c](d) ![e](f)", heading_ids=True, heading_id_prefix="g-", link_base="https://h/", image_base="https://i/", link_rel="nofollow",
    lazy_images=True,
)
check("ids, bases, rel and loading", attributes, (
    '<h1 id="g-a">a</h1>\n<p><a href="#g-a" rel="nofollow">b</a> <a href="https://h/d" rel="nofollow">c</a> '
    '<img src="https://i/f" alt="e" loading="lazy" /></p>'
))
check("listed HTML", to_html("a<br>b <x>c</x>", listed_html=True), "<p>a<br />b &lt;x&gt;c&lt;/x&gt;</p>")
check("listed HTML beside dangerous HTML", to_html("a <b onclick=c>", listed_html=True, dangerous_html=True), "<p>a <b onclick=c></p>")
check("one base for both", to_html("[a](b) ![c](d)", link_base="/e/"), '<p><a href="/e/b">a</a> <img src="/e/d" alt="c" /></p>')
check("a prefix without ids", to_html("# a\n\n[b](#a)", heading_id_prefix="c"), '<h1>a</h1>\n<p><a href="#a">b</a></p>')
check("a base of a wrong type", fault(to_html, "", link_base=None), (TypeError, "link_base must be a str, not NoneType"))
check("an option of the page alone", fault(outline, "", heading_ids=True), (TypeError, "outline() got an unexpected keyword argument 'heading_ids'"))
check("texts of footnotes", [part in notes for part in ('id="1-fn-b"', 'href="#1-fnref-b"', ">N</h3>", 'aria-label="back"')], [True] * 4)

check("a safe page", is_safe_page(to_html("<script> [a](javascript:b)")), True)
check("a page that isn't safe", is_safe_page("<p onclick=alert()>a</p>"), False)
check("a page that isn't UTF-8", is_safe_page(b"\xff"), False)
check("a page of a wrong type", fault(is_safe_page, 3), (TypeError, "page must be str, bytes, bytearray or memoryview, not int"))

check("decoded", (decode("a&amp;\\*&copy;"), decode(b"&lt;")), ("a&*©", b"<"))
check("a label", (normalize_label(" Á\n b "), normalize_label(b"A")), ("á b", b"a"))
check("a label that isn't UTF-8", fault(normalize_label, b"\xff"), (ValueError, "input is not UTF-8"))

found = list(events("> # é *b*\n"))
check("events", [(event.kind, event.name) for event in found[:3]], [("enter", "BlockQuote"), ("enter", "BlockQuotePrefix"), ("enter", "BlockQuoteMarker")])
emphasis = [event for event in found if event.name == "Emphasis"]
check("places", [(event.enters, event.offset, event.line, event.column, event.columns) for event in emphasis], [(True, 7, 1, 8, 0), (False, 10, 1, 11, 0)])
check("texts", [event.text for event in emphasis], ["*b*", "*b*"])
check("texts of bytes", [event.text for event in events("é *b*".encode()) if event.name == "Emphasis"], [b"*b*", b"*b*"])
check("an event, shown", repr(emphasis[0]), "<enter Emphasis 1:8>")
check("no events", list(events("")), [])
voids = [enter.text for enter, leave in zip(found, found[1:]) if enter.enters and not leave.enters]
check("the texts of void events", "".join(voids), "> # é *b*\n")
listed = links("> [a *b*][C] ![d](e\\*&amp;f)\n> <g@h.i>\twww.é.j\n\n[c]: <k l>\n[C]: m", gfm=True)
check("links", [(it.kind, it.destination, it.line, it.column, it.end_line, it.end_column) for it in listed], [
    ("link", "k l", 1, 3, 1, 13), ("image", "e*&f", 1, 14, 1, 29), ("autolink", "mailto:g@h.i", 2, 3, 2, 10),
    ("literal", "http://www.é.j", 2, 13, 2, 21), ("definition", "k l", 4, 1, 4, 11), ("definition", "m", 5, 1, 5, 7),
])
check("texts of links", [it.text for it in listed[:2]], ["[a *b*][C]", "![d](e\\*&amp;f)"])
check("definitions of links", [it.definition for it in listed], [listed[4], None, None, None, None, None])
check("a link, shown", repr(listed[0]), "<link 'k l' 1:3>")
check("texts of bytes", [it.text for it in links("é [a](b)".encode())], [b"[a](b)"])
check("no links", links("a"), [])
check("many links", len(links("[a](b)" * 20000)), 20000)
check("long destinations", [len(it.destination) for it in links("[a](b" + "&ngE;" * 10000 + ")")], [1 + 10000 * len("\u226b\u0338")])
check("an option of the page alone", fault(links, "", prefix="a"), (TypeError, "links() got an unexpected keyword argument 'prefix'"))
headed = outline("# É *b* &amp; [c](d)\n> e\n> f\n> ---\n# é b  c\n")
check("headings", [(it.rank, it.text, it.slug, it.line, it.column, it.end_line, it.end_column) for it in headed], [
    (1, "É b & c", "é-b--c", 1, 1, 1, 22), (2, "e\nf", "ef", 2, 3, 4, 6), (1, "é b  c", "é-b--c-1", 5, 1, 5, 10),
])
check("offsets of headings", [(it.offset, it.end_offset) for it in headed], [(0, 21), (24, 35), (36, 45)])
check("headings of bytes", [it.text for it in outline("# é".encode())], ["é"])
check("a heading, shown", repr(headed[2]), "<heading 1 'é b  c' 5:1>")
check("no headings", outline("a"), [])
check("many headings", [it.slug for it in outline("# a\n" * 20000)][-1], "a-19999")
check("an option of the page alone", fault(outline, "", prefix="a"), (TypeError, "outline() got an unexpected keyword argument 'prefix'"))
check("sanitized", [sanitize("<b onclick=a>c"), sanitize(b"<i>\xc3\xa9</i><script>")], ["<b>c</b>", "<i>é</i>&lt;script&gt;".encode()])
check("no script", sanitize("<a href=javascript:a>b</a><img src=c onerror=d>"), '<a href="">b</a><img src="c" />')
check("other protocols", sanitize("<a href=b:c></a><img src=d:e>", dangerous_protocol=True), '<a href="b:c"></a><img src="d:e" />')
check("other protocols of images", sanitize("<a href=b:c></a><img src=d:e>", any_image_protocol=True), '<a href=""></a><img src="d:e" />')
check("HTML of a wrong type", fault(sanitize, 3), (TypeError, "html must be str, bytes, bytearray or memoryview, not int"))
check("HTML that isn't UTF-8", fault(sanitize, b"\xff"), (ValueError, "input is not UTF-8"))
check("an option of Markdown", fault(sanitize, "", gfm=True), (TypeError, "sanitize() got an unexpected keyword argument 'gfm'"))
check("a page far longer than its HTML", sanitize('"' * 1000), "&quot;" * 1000)
check("many events", sum(event.enters for event in events("*a* " * 20000)) > 100000, True)
check("the version", markdown_proved.__version__.count("."), 2)
check("a library that isn't there", fault(markdown_proved.load, "no.so")[0], ImportError)
check("another library", fault(markdown_proved.load, _ctypes.__file__)[0], ImportError)
names: "dict[str, object]" = {}
exec("from markdown_proved import *", names)
check("what * brings", sorted(name for name in names if name != "__builtins__"), sorted(markdown_proved.__all__))

print(f"{passed} passed, {failed} failed")
sys.exit(failed != 0)
