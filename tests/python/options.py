"""Options by name, as the library for C takes them. The names are those that tables of rows have behind `by`."""
import ctypes
import re
from pathlib import Path

TOP = Path(__file__).resolve().parent.parent.parent
HEADER = (TOP / "include" / "markdown.h").read_text(encoding="utf-8")


def numbers(prefix):
    return {name.lower(): int(number) for name, number in re.findall(rf"{prefix}_(\w+) = (\d+)", HEADER)}


BIT, SWITCH = numbers("MARKDOWN_CONSTRUCT"), numbers("MARKDOWN_SWITCH")
CORE = int(re.search(r"MARKDOWN_COMMONMARK = (\d+)", HEADER)[1])


class Text(ctypes.Structure):
    _fields_ = [("start", ctypes.c_char_p), ("length", ctypes.c_size_t)]


class Flat(ctypes.Structure):
    """`markdown_options` of include/markdown.h."""

    _fields_ = [
        ("size", ctypes.c_size_t),
        ("constructs", ctypes.c_uint64),
        ("switches", ctypes.c_uint32),
        ("line_ending", ctypes.c_uint32),
        ("back", Text),
        ("prefix", Text),
        ("label", Text),
        ("attributes", Text),
        ("tag", Text),
        ("id_prefix", Text),
        ("link_base", Text),
        ("image_base", Text),
        ("rel", Text),
    ]

    def is_on(self, name):
        return bool(self.constructs & BIT[name])

    def has_switch(self, name):
        return bool(self.switches & SWITCH[name])

    def without(self, *names):
        """The same options without these constructs."""
        return flat(self.constructs & ~of(*names), *self.words)

    def adding(self, names):
        """The same options with these switches and these texts of EACH_TEXT, too."""
        switches, off, texts = self.words
        more = {name: EACH_TEXT[name] for name in names if name in EACH_TEXT}
        return flat(self.constructs, (*switches, *(name for name in names if name in SWITCH)), off, {**texts, **more})

    def text(self, name):
        return self.words[2].get(name, TEXTS[name])


def of(*names):
    """The sum of these constructs."""
    return sum(BIT[name] for name in names)


# The switches that are on by default, and the texts.
ON = ("gfm_strikethrough_single_tilde", "math_text_single_dollar")
TEXTS = {
    "back": "Back to content",
    "prefix": "user-content-",
    "label": "Footnotes",
    "attributes": 'class="sr-only"',
    "tag": "h2",
    "id_prefix": "",
    "link_base": "",
    "image_base": "",
    "rel": "",
}
RAW, PROTOCOLS, FILTER = "allow_dangerous_html", "allow_dangerous_protocol", "gfm_tagfilter"
IDS, LAZY, LISTED = "heading_ids", "lazy_images", "allow_listed_html"
ANY_IMAGES = "allow_any_img_src"


def flat(constructs, switches=(), off=(), texts=None):
    """Options with these constructs, with further switches, with these of ON off, and with these texts in place of the default ones."""
    texts = texts or {}
    given = Flat(ctypes.sizeof(Flat), constructs, sum(SWITCH[name] for name in set(switches) | set(ON) - set(off)), 0)
    for name, default in TEXTS.items():
        data = texts.get(name, default).encode()
        setattr(given, name, Text(data, len(data)))
    given.may_be_unsafe = bool({*switches, *texts} & {RAW, PROTOCOLS, "tag", "attributes"})
    given.adds_attributes = bool({*switches, *texts} & {IDS, LAZY, "rel"})
    given.keeps_listed = LISTED in switches and RAW not in switches
    given.words = switches, off, texts
    return given


def of_numbers(constructs, switches, line_ending):
    """Options by the numbers of the header."""
    given = flat(constructs)
    given.switches, given.line_ending = switches, line_ending
    return given


BLOCKS = of("block_quote", "code_fenced", "code_indented", "definition", "heading_atx", "heading_setext", "html_flow", "list_item", "thematic_break")
GFM = CORE | of(
    "gfm_autolink_literal", "gfm_footnote_definition", "gfm_label_start_footnote", "gfm_strikethrough", "gfm_table", "gfm_task_list_item"
)
MATH = of("math_flow", "math_text")
EXTENSIONS = CORE | MATH | of("gfm_strikethrough", "gfm_task_list_item", "frontmatter")
EVERYTHING = GFM | MATH | of("mark", "frontmatter")

REL, BASE, RAW_BASE = "nofollow noopener", "https://x.y/r/", "https://x.y/raw/"
EACH_TEXT = {"id_prefix": "user-content-", "link_base": BASE, "image_base": RAW_BASE, "rel": REL}
# The options that change attributes of headings, links and images alone.
ATTRIBUTES = IDS, LAZY, *EACH_TEXT

OPTIONS = {
    "Plain": flat(0),
    "Leaves": flat(of("code_fenced", "code_indented", "heading_atx", "thematic_break")),
    "MathAlone": flat(of("math_flow")),
    "Blocks": flat(BLOCKS),
    "BlocksWithoutDefinitions": flat(BLOCKS & ~of("definition")),
    "BlocksAndFrontmatter": flat(BLOCKS | of("frontmatter")),
    "BlocksAndMath": flat(BLOCKS | of("math_flow")),
    "BlocksAndRawHtml": flat(BLOCKS, (RAW,)),
    "BlocksAndFilteredHtml": flat(BLOCKS, (RAW, FILTER)),
    "CommonMark": flat(CORE),
    "Standard": flat(CORE, (RAW, PROTOCOLS)),
    "AnyImages": flat(CORE, (ANY_IMAGES,)),
    "CommonMarkAndTables": flat(CORE | of("gfm_table")),
    "CommonMarkAndFrontmatter": flat(CORE | of("frontmatter")),
    "Mark": flat(CORE | of("mark")),
    "Extended": flat(CORE | MATH | of("frontmatter", "mark")),
    "Extensions": flat(EXTENSIONS),
    "ExtensionsByTwoTildes": flat(EXTENSIONS, (), ON[:1]),
    "ExtensionsByTwoDollars": flat(EXTENSIONS, (), ON[1:]),
    "ExtensionsCheckable": flat(EXTENSIONS, ("gfm_task_list_item_checkable",)),
    "Gfm": flat(GFM, (FILTER,)),
    "GfmAndMark": flat(GFM | of("mark"), (FILTER,)),
    "GfmAndRawHtml": flat(GFM, (RAW, FILTER)),
    "GfmAndMath": flat(GFM | MATH),
    "Everything": flat(EVERYTHING, (FILTER,)),
    "EverythingAndRawHtml": flat(EVERYTHING, (RAW, FILTER)),
    "FootnotesPrefixed": flat(GFM, (FILTER,), (), {"prefix": "x<"}),
    "FootnotesBare": flat(GFM, (FILTER,), (), {"prefix": ""}),
    "FootnotesNamed": flat(GFM, (FILTER,), (), {"label": "Notes & more"}),
    "FootnotesTagged": flat(GFM, (FILTER,), (), {"tag": "h1"}),
    "FootnotesShown": flat(GFM, (FILTER,), (), {"attributes": 'class="x" hidden'}),
    "FootnotesReturned": flat(GFM, (FILTER,), (), {"back": 'Zurück "oben"'}),
    "HeadingIds": flat(CORE, (IDS,)),
    "HeadingIdsPrefixed": flat(CORE, (IDS,), (), {"id_prefix": "user-content-"}),
    "HeadingIdsEncoded": flat(CORE, (IDS,), (), {"id_prefix": '"<&'}),
    "GfmAndHeadingIds": flat(GFM, (FILTER, IDS)),
    "GfmAndHeadingIdsPrefixed": flat(GFM, (FILTER, IDS), (), {"id_prefix": "user-content-"}),
    "LinkRel": flat(CORE, (), (), {"rel": REL}),
    "LinkRelEncoded": flat(CORE, (), (), {"rel": 'a"b'}),
    "GfmAndLinkRel": flat(GFM, (FILTER,), (), {"rel": REL}),
    "LazyImages": flat(CORE, (LAZY,)),
    "Bases": flat(CORE, (), (), {"link_base": BASE, "image_base": RAW_BASE}),
    "LinkBase": flat(CORE, (), (), {"link_base": BASE}),
    "ImageBase": flat(CORE, (), (), {"image_base": RAW_BASE}),
    "ScriptBase": flat(CORE, (), (), {"link_base": "javascript:"}),
    "GfmAndLinkBase": flat(GFM, (FILTER,), (), {"link_base": BASE}),
    "GfmAndAttributes": flat(GFM, (FILTER, IDS, LAZY), (), {"rel": "x"}),
    "EachAttribute": flat(CORE, (IDS, LAZY), (), EACH_TEXT),
    "EverythingAndEachAttribute": flat(EVERYTHING, (FILTER, IDS, LAZY), (), EACH_TEXT),
    "ListedHtml": flat(CORE, (LISTED,)),
    "ListedHtmlAndProtocols": flat(CORE, (LISTED, PROTOCOLS)),
    "ListedHtmlAndAnyImages": flat(CORE, (LISTED, ANY_IMAGES)),
    "ListedHtmlWithoutText": flat(CORE & ~of("html_text"), (LISTED,)),
    "ListedHtmlWithoutHtml": flat(CORE & ~of("html_flow", "html_text"), (LISTED,)),
    "ListedHtmlAndRawHtml": flat(CORE, (LISTED, RAW)),
    "GfmAndListedHtml": flat(GFM, (FILTER, LISTED)),
    "EverythingAndListedHtml": flat(EVERYTHING, (FILTER, LISTED, IDS, LAZY), (), EACH_TEXT),
    "RawHtmlAndEachAttribute": flat(EVERYTHING, (RAW, FILTER, IDS, LAZY), (), EACH_TEXT),
}
EACH_WORD = [
    "--heading-ids", "--heading-id-prefix=user-content-", f"--link-base={BASE}", f"--image-base={RAW_BASE}", f"--link-rel={REL}", "--lazy-images"
]  # fmt: skip
# The words of the program `markdown` that mean the same as options, where there are such.
WORDS = {
    "CommonMark": [],
    "Plain": ["--plain"],
    "Standard": ["--dangerous"],
    "CommonMarkAndFrontmatter": ["--frontmatter"],
    "Mark": ["--mark"],
    "Extended": ["--math", "--frontmatter", "--mark"],
    "Gfm": ["--gfm"],
    "GfmAndMark": ["--gfm", "--mark"],
    "Everything": ["--gfm", "--math", "--frontmatter", "--mark"],
    "HeadingIds": ["--heading-ids"],
    "HeadingIdsPrefixed": ["--heading-ids", "--heading-id-prefix=user-content-"],
    "HeadingIdsEncoded": ["--heading-ids", '--heading-id-prefix="<&'],
    "GfmAndHeadingIds": ["--gfm", "--heading-ids"],
    "GfmAndHeadingIdsPrefixed": ["--gfm", "--heading-id-prefix", "user-content-", "--heading-ids"],
    "LinkRel": [f"--link-rel={REL}"],
    "LinkRelEncoded": ['--link-rel=a"b'],
    "GfmAndLinkRel": ["--gfm", "--link-rel", REL],
    "LazyImages": ["--lazy-images"],
    "Bases": [f"--link-base={BASE}", f"--image-base={RAW_BASE}"],
    "LinkBase": [f"--link-base={BASE}"],
    "ImageBase": [f"--image-base={RAW_BASE}"],
    "ScriptBase": ["--link-base=javascript:"],
    "GfmAndLinkBase": ["--gfm", "--link-base", BASE],
    "GfmAndAttributes": ["--gfm", "--heading-ids", "--lazy-images", "--link-rel=x"],
    "ListedHtml": ["--listed-html"],
    "GfmAndListedHtml": ["--gfm", "--listed-html"],
    "EverythingAndListedHtml": ["--gfm", "--math", "--frontmatter", "--mark", "--listed-html", *EACH_WORD],
    "EachAttribute": EACH_WORD,
    "EverythingAndEachAttribute": ["--gfm", "--math", "--frontmatter", "--mark", *EACH_WORD],
}
