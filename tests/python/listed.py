"""Pages with raw HTML that is kept by the list: a reading of such a page, which knows nothing of how it was made."""
import functools
import html
import re

from options import ANY_IMAGES, LISTED, RAW

VOID = set("br hr img source wbr".split())
HEADINGS = {f"h{rank}" for rank in range(1, 7)}
# The elements of the list that stand in some others alone, and those that hold nothing but such parts and text.
PARENTS = {
    **dict.fromkeys(("li",), ("ul", "ol")),
    **dict.fromkeys(("dt", "dd"), ("dl",)),
    **dict.fromkeys(("rt", "rp"), ("ruby",)),
    **dict.fromkeys(("caption", "thead", "tbody", "tfoot"), ("table",)),
    **dict.fromkeys(("td", "th"), ("tr",)),
    "tr": ("table", "thead", "tbody", "tfoot"),
}
FRAMES = {"table", "thead", "tbody", "tfoot", "tr"}
NAMES = VOID | HEADINGS | set(PARENTS) | set("""
    a abbr b bdo blockquote cite code del details dfn div dl em figcaption figure i ins kbd mark ol p picture pre q ruby s samp small span strike
    strong sub summary sup table time tt ul var
""".split())
# The attributes, in their order; the first two stand at one element each, and take these protocols.
ATTRIBUTES = "href src alt title align valign width height colspan rowspan dir lang start reversed type value open datetime media".split()
URLS = {"href": ("a", "http https irc ircs mailto xmpp"), "src": ("img", "http https")}
# What a heading may stand in and yet be in another heading.
INLINE = NAMES - FRAMES - HEADINGS - set(PARENTS) - set("blockquote details div dl figcaption figure ol pre summary ul".split())
LETTERS = re.compile('(?:[^<>"&]|&(?:amp|quot|lt|gt);)*')
TAG = re.compile(r'<(/?)([a-z0-9]+)((?: [a-z-]+="[^"<>]*")*)( /)?>')
ATTRIBUTE = re.compile(' ([a-z-]+)="([^"]*)"')
# Attributes that options add to tags of a safe page.
ADDED = re.compile('(?<=^<h[1-6]) id="[^"]*"(?=>)| rel="[^"]*"(?=>)| loading="lazy"(?= />)')


def is_permitted(url, protocols):
    """Whether a URL has one of these protocols, or none."""
    protocol = re.match("[^/?#:]*(?=:)", url)
    return protocol is None or protocol[0].lower() in protocols.split()


def is_of_list(name, attributes, any_source):
    """Whether a tag is one of the list: its attributes are of the list, in its order. With `any_source` an image may have any protocol."""
    if name not in NAMES or not LETTERS.fullmatch("".join(value for _, value in attributes)):
        return False
    places = [ATTRIBUTES.index(key) if key in ATTRIBUTES else -1 for key, _ in attributes]
    if -1 in places or any(one >= two for one, two in zip(places, places[1:])):
        return False
    urls = [(key, html.unescape(value)) for key, value in attributes if key in URLS]
    return all(URLS[key][0] == name and (any_source and key == "src" or is_permitted(url, URLS[key][1])) for key, url in urls)


def listed_fault(library, page, any_source):
    """Why a page has no reading as safe HTML with elements of the list, each where it may stand, or None."""

    @functools.lru_cache(None)
    def is_safe(name, tag):
        return library.is_safe(ADDED.sub("", tag) + ("" if tag.endswith(" />") else f"</{name}>"))

    at, held = 0, []
    while at < len(page):
        at = LETTERS.match(page, at).end()
        if at == len(page):
            break
        tag = TAG.match(page, at)
        if tag is None:
            return f"no tag at {page[at : at + 40]!r}"
        end, name, attributes, is_void = tag[1], tag[2], ATTRIBUTE.findall(tag[3]), tag[4] is not None
        at = tag.end()
        if end:
            if attributes or is_void or not held or held.pop() != name:
                return f"{tag[0]} ends nothing"
            continue
        if not (is_of_list(name, attributes, any_source) and is_void == (name in VOID)) and not is_safe(name, tag[0]):
            return f"{tag[0]} isn't of the list, and in no safe page"
        around = held[-1] if held else ""
        if around not in PARENTS[name] if name in PARENTS else around in FRAMES:
            return f"{name} in {around}"
        if name in HEADINGS and next((it for it in reversed(held) if it not in INLINE), "") in HEADINGS:
            return f"{name} in another heading"
        if not is_void:
            held.append(name)
    return f"{held[-1]} is open" if held else None


def kept_fault(library, text, options, names):
    """What is wrong with the page of a text by options, by these more, and with raw HTML that is kept by the list, or None."""
    off, on = options.adding(names), options.adding((*names, LISTED))
    page, bare = library.page(text, on), ("html_flow", "html_text")
    if not on.may_be_unsafe and (fault := listed_fault(library, page, on.has_switch(ANY_IMAGES))):
        return f"not listed: {fault}, in {page!r}"
    if library.page(text, off.without(*bare)) != library.page(text, on.without(*bare)):
        return "another page without raw HTML"
    if library.page(text, off.adding((RAW,))) != library.page(text, on.adding((RAW,))):
        return "another page where raw HTML is printed as it is"
    return None
