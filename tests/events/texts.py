"""The texts whose events `sums` has: the rows of all tables, and random ones. A text is read by sets of constructs."""
import glob
import os
import random

# The constructs, in the order of their numbers in markdown.h.
CONSTRUCTS = """
    attention autolink block_quote character_escape character_reference code_indented code_fenced code_text definition frontmatter
    gfm_autolink_literal gfm_footnote_definition gfm_label_start_footnote gfm_strikethrough gfm_table gfm_task_list_item
    hard_break_escape hard_break_trailing heading_atx heading_setext html_flow html_text label_start_image label_start_link
    label_end list_item mark math_flow math_text thematic_break
""".split()
MATH = ["math_flow", "math_text"]
GFM = [it for it in CONSTRUCTS if it.startswith("gfm_")]
CORE = [it for it in CONSTRUCTS if it not in GFM + MATH + ["frontmatter", "mark"]]
BLOCKS = "block_quote code_fenced code_indented definition heading_atx heading_setext html_flow list_item thematic_break".split()
EXTENSIONS = CORE + MATH + ["gfm_strikethrough", "gfm_task_list_item", "frontmatter"]
# The sets of options that tables of rows name, as tests_options has them, without options of printing.
SETS = {
    "Plain": [],
    "Leaves": ["code_fenced", "code_indented", "heading_atx", "thematic_break"],
    "MathAlone": ["math_flow"],
    "Blocks": BLOCKS,
    "BlocksWithoutDefinitions": [it for it in BLOCKS if it != "definition"],
    "BlocksAndFrontmatter": BLOCKS + ["frontmatter"],
    "BlocksAndMath": BLOCKS + ["math_flow"],
    "BlocksAndRawHtml": BLOCKS,
    "BlocksAndFilteredHtml": BLOCKS,
    "ListedHtml": CORE,
    "GfmAndListedHtml": CORE + GFM,
    "CommonMark": CORE,
    "Standard": CORE,
    "CommonMarkAndTables": CORE + ["gfm_table"],
    "CommonMarkAndFrontmatter": CORE + ["frontmatter"],
    "Mark": CORE + ["mark"],
    "Extended": CORE + MATH + ["frontmatter", "mark"],
    "Extensions": EXTENSIONS,
    "ExtensionsByTwoTildes": EXTENSIONS,
    "ExtensionsByTwoDollars": EXTENSIONS,
    "ExtensionsCheckable": EXTENSIONS,
    "Gfm": CORE + GFM,
    "GfmAndMark": CORE + GFM + ["mark"],
    "Everything": CONSTRUCTS,
    "EverythingAndRawHtml": CONSTRUCTS,
}
# One tilde strikes text, and one dollar makes math.
SWITCHES = ["single_tilde", "single_dollar"]
# Tables of other kinds, whose rows begin with a text: read by everything.
OTHERS = {"All", "Document", "Keep"}


class Text:
    """A text, with the constructs and the switches that it is read by."""

    def __init__(self, text, constructs, switches=SWITCHES):
        self.text = text
        self.constructs = frozenset(constructs)
        self.switches = frozenset(switches)

    def options(self):
        """The numbers of its constructs, of its switches: what is on."""
        constructs = sum(1 << place for place, name in enumerate(CONSTRUCTS) if name in self.constructs)
        return constructs, sum(1 << place for place, name in enumerate(SWITCHES) if name in self.switches)


# ---- rows


def decoded(source):
    """A file of rows, in which control characters and spaces may have pictures, and any character a number."""
    first, *parts = source.split("\u241b")
    for part in parts:
        digits, _, rest = part.partition(";")
        first += chr(int(digits, 16)) + rest
    return "".join(chr(ord(it) - 0x2400) if "\u2400" <= it <= "\u2420" else "\x7f" if it == "\u2421" else it for it in first)


def table_texts(ways, rows):
    """The texts of a table, each by the options that it names."""
    for way in ways.split():
        constructs = SETS.get(way, CONSTRUCTS if way in OTHERS else CORE + GFM if way.startswith("Footnotes") else None)
        if constructs is None:
            continue
        off = {"ExtensionsByTwoTildes": "single_tilde", "ExtensionsByTwoDollars": "single_dollar"}.get(way)
        for row in rows:
            yield Text(row, constructs, [it for it in SWITCHES if it != off])


def rows(folder):
    """The texts of the tables in a folder, and in those in it."""
    for name in sorted(glob.glob(os.path.join(folder, "**", "*.rows"), recursive=True)):
        with open(name, encoding="utf-8", newline="") as file:
            source = file.read()
        for table in source.split("\n@table ")[1:]:
            head, _, rest = table.partition("\n")
            sources = [row.partition("\n")[2].partition("\n@is\n")[0] for row in rest.split("\n@row")[1:]]
            # The last row of a table may have no `@is`: then the file ends its text.
            yield from table_texts(head.partition(" by ")[2], [decoded(it) for it in sources])


# ---- random texts

PREFIXES = ["> ", ">", ">  ", "- ", "-   ", "* ", "+ ", "1. ", "2) ", "10. ", "  ", "    ", "   ", "\t", "[^a]: ", "-\t", ">\t"]
STARTS = [
    "# ", "## ", "###### ", "#", "```", "~~~~", "``` a&amp;b c", "$$", "---", "***", "- - -", "===", "--", "<div>", "<!-- a", "-->", "<?a", "?>",
    "[a]: /b", "[a]:", "[b]: <c d> 'e'", "[c]: x (y", "| a | b |", "a | b", "|-|:-:|", "--|--", ":-", "[ ] a", "[x] ", "+++", "<p>a", "</p>", "<script>",
]
PARTS = [
    "a", "b c", "\u00e9", "\u20ac.", "*", "**", "_", "__", "~", "~~", "==", "`", "``", "$", "$$", "[", "]", "![", "](", ")", "](/u)", "](<u v> \"w\")",
    "[a]", "[A][]", "[b][a]", "[^a]", "![a](b 'c')", "<a:b>", "<c@d.e>", "<i>", "</i >", "<a b='c'>", "<!--c-->", "&amp;", "&#10;", "&#x41;", "&copy", "\\*",
    "\\\\", "\\", "www.a.b", "https://a.b/c", "mailto:a@b.c", "a@b.c", "xmpp:a@b.c/d", "|", "\\|", "(", " ", "  ", "\t", ":", "'d'", "!", "x", "\ufeff", "\u00a0",
]
ENDS = ["", "", "", " ", "  ", "\\", "   ", "\t", " #", " ##  ", "|"]
FENCES = [("```", "```"), ("~~~ a\\*b", "~~~~ "), ("$$ c", "$$"), ("---", "---"), ("<!--", "-->"), ("<pre>", "</pre>"), ("*a", "b*"), ("`a", "b`"), ("[a", "b](c)")]


class Maker:
    """Makes random texts by a seed. It takes only `random` of the generator, which gives the same in each version of Python."""

    def __init__(self, seed):
        self.random = random.Random(seed).random

    def below(self, count):
        return int(self.random() * count)

    def some(self, choices):
        return choices[self.below(len(choices))]

    def chance(self, percent):
        return self.below(100) < percent

    def joined(self, choices, most):
        return "".join(self.some(choices) for _ in range(self.below(most + 1)))

    def content(self):
        """What is on a line after its prefixes."""
        if self.chance(15):
            return ""
        start = self.some(STARTS) if self.chance(45) else ""
        return start + self.joined(PARTS, 5) + self.some(ENDS)

    def lines(self):
        prefix = self.joined(PREFIXES, 2)
        found = [prefix + self.content()]
        for _ in range(self.below(7)):
            if self.chance(45):
                prefix = self.joined(PREFIXES, 2)
            if self.chance(15):
                opening, closing = self.some(FENCES)
                found += [prefix + opening, prefix + self.content(), prefix + closing]
            else:
                found.append(prefix + self.content())
        return found

    def text(self):
        if self.chance(10):
            text = self.joined(PARTS, 12)
        elif self.chance(10):
            text = self.joined(PREFIXES + STARTS + PARTS + ["\n", "\n", "\n"], 14)
        else:
            text = "\n".join(self.lines()) + self.some(["", "\n", "\n\n"])
        if self.chance(8):
            text = text.replace("\n", self.some(["\r\n", "\r"]))
        return "\ufeff" + text if self.chance(2) else text

    def constructs(self):
        """The default, GitHub's, all of them, or some."""
        if self.chance(70):
            return self.some([CORE, CORE + GFM, CONSTRUCTS, CONSTRUCTS])
        kept = self.some([50, 90])
        return [it for it in CONSTRUCTS if self.chance(kept)]

    def switches(self):
        return SWITCHES if self.chance(90) else [it for it in SWITCHES if self.chance(50)]


def random_texts(seed, count):
    maker = Maker(seed)
    for _ in range(count):
        yield Text(maker.text(), maker.constructs(), maker.switches())
