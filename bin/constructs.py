#!/usr/bin/env python3
"""Writes docs/CONSTRUCTS.md: for each construct its grammar and where it is defined, read, printed, proved and tested; and for each section of the
standards the files of the definition that say at their heads that they are about it.

usage: bin/constructs.py            writes the page
       bin/constructs.py --check    fails where the page is not what would be written

A file belongs to the construct whose switch in `Constructs` it is named after: `code_text.rt`, `proofs/code_text`,
`CodeText.antt`, `CodeTextLemmas.antt`; SHARED names the constructs of the others. The prefix of its crate is its room.
Both ways fail on a gap: a construct that is read, but has no file in a room that it needs, or no grammar at its reader's
head; on an entry of SHARED or LAW_NAMES that points at no file, no law or no construct; and where the list of verdicts in
docs/PROVED.md isn't that of the functions of `state_verdicts`, or the README gives other numbers of them.
"""
import os
import re
import sys

TOP = os.path.dirname(os.path.dirname(os.path.realpath(__file__)))
PAGE = os.path.join(TOP, "docs", "CONSTRUCTS.md")
SWITCHES = "crates/markdown_options/src/configuration.rt"
# The folder of rows of texts. It is listed as a crate is.
ROWS = "tests/rows"

ROOMS = ("Definition", "Reader", "Printer", "Events", "States", "Proofs", "Laws", "Tests")
# The rooms that each construct needs. Not each has proofs of its own: many functions are proved with none.
NEEDED = ("Definition", "Reader", "Printer", "Events", "Laws", "Tests")
# The room of the code of a crate, by its name's prefix; the first that fits counts.
PREFIXES = {
    "definition_": "Definition",
    "event_definition": "Definition",
    "state_": "States",
    "parse_": "Events",
    "compile_": "Events",
    "text_": "Reader",
    "block_": "Reader",
    "inline_": "Reader",
    "html_": "Printer",
    "laws_": "Laws",
    "examples_": "Tests",
    "tests_": "Tests",
}
# Files that have no construct's name, and whose they are: what several constructs share, and further files of one. A path
# is a crate and a file or a folder of proofs, without the part of the crate between.
SHARED = {
    "definition_block/Definitions.antt": "definition",
    "definition_block/HtmlNames.antt": "html_flow",
    "definition_block/Lists.antt": "list_item",
    "definition_inline/Destination.antt": "definition label_end",
    "definition_inline/HardBreak.antt": "hard_break_escape hard_break_trailing",
    "definition_inline/HtmlTags.antt": "html_flow html_text",
    "definition_inline/Label.antt": "definition label_end",
    "definition_inline/CodeText.antt": "math_text",
    "definition_inline/Attention.antt": "gfm_strikethrough mark",
    "definition_inline/NextPair.antt": "attention gfm_strikethrough mark",
    "definition_inline/Pairing.antt": "attention gfm_strikethrough mark",
    "definition_inline/Parts.antt": "definition label_end",
    "definition_inline/Resource.antt": "label_end",
    "definition_inline/RunPairs.antt": "attention gfm_strikethrough mark",
    "definition_inline/Scan.antt": "label_start_image label_start_link",
    "definition_inline/SpanRows.antt": "attention gfm_strikethrough mark",
    "definition_inline/Spans.antt": "attention gfm_strikethrough mark",
    "definition_inline/Title.antt": "definition label_end",
    "event_definition/Attention.antt": "gfm_strikethrough mark",
    "event_definition/CodeFenced.antt": "math_flow",
    "event_definition/CodeText.antt": "math_text",
    "event_definition/Destination.antt": "definition label_end",
    "event_definition/HardBreak.antt": "hard_break_escape hard_break_trailing",
    "event_definition/LabelEnd.antt": "label_start_image label_start_link",
    "event_definition/Resource.antt": "label_end",
    "block_leaves/code_fenced.rt": "math_flow",
    "block_parser/code_fenced.rt": "math_flow",
    "inline_content/run.rt": "attention gfm_strikethrough mark",
    "inline_content/previous.rt": "gfm_autolink_literal",
    "state_edits_data/RawText.antt": "code_text math_text",
    "state_edits_data/raw_text": "code_text math_text",
    "state_edits_data/raw_text.rt": "code_text math_text",
    "inline_label_ends/forms.rt": "label_end",
    "inline_constructs/RawTextLemmas.antt": "code_text math_text",
    "inline_constructs/raw_runs.rt": "code_text math_text",
    "inline_constructs/raw_text": "code_text math_text",
    "inline_constructs/raw_text.rt": "code_text math_text",
    "inline_links/destination.rt": "definition label_end",
    "inline_links/label.rt": "definition label_end",
    "inline_links/resource.rt": "label_end",
    "inline_links/title.rt": "definition label_end",
    "inline_literals/address.rt": "gfm_autolink_literal",
    "inline_literals/name.rt": "gfm_autolink_literal",
    "inline_reading/label.rt": "label_start_image label_start_link",
    "inline_reading/label_start.rt": "label_start_image label_start_link",
    "inline_references/reference.rt": "character_reference",
    "inline_runs/pairing.rt": "attention gfm_strikethrough mark",
    "inline_runs/run.rt": "attention gfm_strikethrough mark",
    "inline_runs/spans.rt": "attention gfm_strikethrough mark",
    "inline_rows/tell.rt": "attention gfm_strikethrough mark",
    "state_leaves/RawText.antt": "code_text math_text",
    "state_leaves/raw_text.rt": "code_text math_text",
    "state_verdicts/LabelStarts.antt": "label_start_image label_start_link gfm_label_start_footnote",
    "state_verdicts/RawFlow.antt": "code_fenced math_flow",
    "state_verdicts/RawText.antt": "code_text math_text",
    "state_verdicts/raw_flow": "code_fenced math_flow",
    "state_verdicts/raw_flow.rt": "code_fenced math_flow",
    "inline_tags/tags.rt": "html_flow html_text",
    "html_inline/leaf.rt": "autolink character_escape character_reference hard_break_escape hard_break_trailing",
    "html_inline/rows.rt": "attention gfm_strikethrough mark label_end",
    "html_inline/string.rt": "character_escape character_reference",
    "html_inline/url.rt": "autolink label_end",
    "html_blocks/code_fenced.rt": "math_flow",
    "html_leaves/code_fenced.rt": "math_flow",
    "html_leaves/heading.rt": "heading_atx heading_setext",
    "html_leaves/list.rt": "list_item",
    "html_looseness/loose.rt": "list_item",
    "html_blocks/container.rt": "block_quote list_item",
    "html_blocks/list.rt": "list_item",
    "examples_block/Containers.antt": "block_quote list_item",
    "examples_block/Leaves.antt": "definition heading_setext html_flow",
    "examples_inline/LabelStartImage.antt": "label_end",
    "examples_inline/LabelStartLink.antt": "label_end",
    "laws_endings/PrintedTable.antt": "gfm_table",
    "laws_footnotes/Footnotes.antt": "gfm_footnote_definition",
    "laws_footnotes/footnotes.rt": "gfm_footnote_definition",
    "compile_rows/rows.rt": "attention gfm_strikethrough mark label_start_image label_start_link gfm_label_start_footnote",
    "compile_rows/leaf.rt": "autolink html_text hard_break_escape hard_break_trailing math_text code_text",
    "parse_inline/code_text.rt": "math_text",
    "parse_inline/gfm_footnote_call.rt": "gfm_label_start_footnote",
    "parse_inline/label.rt": "label_end label_start_image label_start_link",
    "parse_inline/leaf.rt": "autolink html_text hard_break_escape hard_break_trailing math_text code_text",
    "parse_inline/span.rt": "attention gfm_strikethrough mark",
    "tests/rows/hard_break.rows": "hard_break_escape hard_break_trailing",
    "tests/rows/list.rows": "list_item",
    "tests/rows/raw_html.rows": "html_text",
    "state_gfm/GfmTaskListItemCheck.antt": "gfm_task_list_item",
    "state_gfm/gfm_task_list_item_check.rt": "gfm_task_list_item",
    "state_labels/Destination.antt": "label_end",
    "state_labels/Label.antt": "label_end",
    "state_labels/Start.antt": "label_start_image label_start_link",
    "state_labels/Title.antt": "label_end",
    "state_labels/partial_destination.rt": "label_end",
    "state_labels/partial_label.rt": "label_end",
    "state_labels/partial_title.rt": "label_end",
    "state_labels/start.rt": "label_start_image label_start_link",
}
# Files with the name of a construct that are of something else: what is before a line, the byte order mark, and the marks of items.
OTHERS = {"block_starts/MarkLemmas.antt", "inline_content/mark.rt", "text_lines/mark", "text_lines/mark.rt"}
# Laws whose names have another word before `_law` than the construct that they speak of.
LAW_NAMES = {
    "constructs": "attention autolink character_escape character_reference code_text gfm_autolink_literal gfm_label_start_footnote"
    " gfm_strikethrough hard_break_escape hard_break_trailing html_text label_end label_start_image label_start_link mark math_text",
    "escape": "character_escape",
    "escaped_page": "character_escape",
    "first_match": "label_end",
    "grouped": "list_item",
    "heading": "heading_atx heading_setext",
    "heading_lines": "heading_atx heading_setext",
    "labels_match": "label_end",
    "list": "list_item",
    "list_page": "list_item",
    "listed_lines": "list_item",
    "looseness": "list_item",
    "looseness_told": "list_item",
    "marker": "list_item",
    "neighbours": "list_item",
    "nested_links": "label_end",
    "next_pair": "attention",
    "pairs": "attention",
    "parted": "list_item",
    "quote": "block_quote",
    "quote_page": "block_quote",
    "quote_pages": "block_quote",
    "quoted_lines": "block_quote",
    "quotes": "block_quote",
    "references": "label_end",
    "string_escape": "character_escape",
    "string_parts": "character_escape character_reference",
}
# Why a construct has nothing in a room.
WITHOUT = {
    ("definition", "Printer"): "prints nothing",
    ("frontmatter", "Printer"): "prints nothing",
    ("label_start_image", "Printer"): "by `label_end`",
    ("label_start_link", "Printer"): "by `label_end`",
}
# Constructs that are never read.
LEFT_OUT = "mdx_"
# The list of verdicts, and the functions that it names; numbers in words.
PROVED = "docs/PROVED.md"
VERDICTS = "crates/state_verdicts/src"
NUMBERS = (
    "no one two three four five six seven eight nine ten eleven twelve thirteen fourteen fifteen sixteen seventeen eighteen nineteen twenty twenty-one twenty-two"
    " twenty-three twenty-four twenty-five twenty-six twenty-seven twenty-eight twenty-nine thirty"
).split()


def text_of(path):
    with open(os.path.join(TOP, path), encoding="utf-8") as file:
        return file.read()


def names_in(folder):
    path = os.path.join(TOP, folder)
    return sorted(os.listdir(path)) if os.path.isdir(path) else []


def switches():
    """The fields of `Constructs`, in their order."""
    struct = re.search(r"pub struct Constructs \{(.*?)\n\}", text_of(SWITCHES), re.S)
    names = re.findall(r"(?m)^\s*pub (\w+): bool,", struct[1]) if struct else []
    if not names:
        sys.exit(f"{SWITCHES} has no fields of Constructs")
    return [it for it in names if not it.startswith(LEFT_OUT)]


def crates():
    return re.findall(r"(?m)^([a-z0-9_]+)[^:#\n]*:", text_of("crates.txt"))


def snake_case(name):
    return re.sub(r"(?<!^)(?=[A-Z])", "_", name).lower()


def stem_of(file):
    """The name of a file or a folder of proofs in snake case. Lemmas on a construct have its name."""
    stem, ending = os.path.splitext(file)
    return stem if ending in (".rt", ".rows") or not ending else snake_case(stem).removesuffix("_lemmas")


def files_of(crate):
    """The files of a crate, of folders of its code and of rows too, and the folders of its proofs: the part of the crate, and the path."""
    for part in ("src", "specs", "proofs") if crate != ROWS else ("",):
        folder = f"crates/{crate}/{part}" if part else ROWS
        for name in names_in(folder):
            path = f"{folder}/{name}"
            below = names_in(path) if part in ("src", "") else []
            yield from ((part, f"{path}/{it}") for it in below)
            if not below:
                yield part, path


def room_of(crate, part):
    """The room of a file, or None."""
    if crate == ROWS:
        return "Tests"
    room = next((it for prefix, it in PREFIXES.items() if crate.startswith(prefix)), None)
    is_proof = part == "proofs" or part == "specs" and room != "Definition"
    return "Proofs" if is_proof and room in ("Definition", "Reader", "Printer", "Events") else room


def law_names(path):
    """The names of the laws of a file, without `_law`."""
    return re.findall(r"\bpub fn (\w+)_law\b", text_of(path))


def laws_in(path):
    """The constructs that the laws of a file speak of."""
    for law in law_names(path):
        yield from LAW_NAMES.get(law, law).split()


def constructs_of(crate, part, path, room):
    """The constructs that a file is of."""
    file = os.path.basename(path)
    if f"{crate}/{file}" not in OTHERS:
        yield stem_of(file)
    yield from SHARED.get(f"{crate}/{file}", "").split()
    if room == "Laws" and part == "src":
        yield from laws_in(path)


def places(names):
    """The paths of each construct and room."""
    found = {}
    for crate in [*crates(), ROWS]:
        for part, path in files_of(crate):
            room = room_of(crate, part)
            for name in dict.fromkeys(constructs_of(crate, part, path, room)):
                if room and name in names:
                    found.setdefault((name, room), []).append(path)
    return found


def stale_entries(names):
    """The entries of SHARED and LAW_NAMES that point at nothing."""
    files, laws = set(), set()
    for crate in [*crates(), ROWS]:
        for part, path in files_of(crate):
            files.add(f"{crate}/{os.path.basename(path)}")
            if room_of(crate, part) == "Laws" and part == "src":
                laws.update(law_names(path))
    yield from (f"SHARED has {it}, which is no file" for it in SHARED if it not in files)
    yield from (f"OTHERS has {it}, which is no file" for it in OTHERS if it not in files)
    yield from (f"LAW_NAMES has {it}, which is no law" for it in LAW_NAMES if it not in laws)
    for entries in (SHARED, LAW_NAMES):
        for entry, words in entries.items():
            yield from (f"{entry} is said to be of {it}, which is no construct" for it in words.split() if it not in names)


def grammar_of(path):
    """The rules at the head of a file: the lines that stand in, each rule joined to one line."""
    head = re.match(r"(?://!.*\n)*", text_of(path))[0]
    rules = []
    for line in (it[3:].rstrip() for it in head.splitlines()):
        words = " ".join(line.split())
        if line.startswith("     ") and "::=" in words:
            rules.append(words)
        elif line.startswith("     ") and rules:
            rules[-1] += " " + words
    return rules


def grammar(paths):
    """The rules at the heads of these files, each once."""
    return [*dict.fromkeys(rule for it in paths if it.endswith(".rt") for rule in grammar_of(it))]


def link(name, path):
    """A link to a file. Its words are its crate, and the name of the file where that isn't the construct's; of rows they are the file."""
    if path.startswith(ROWS):
        return f"[`{os.path.splitext(path)[0]}`](../{path})"
    _, crate, _, file = path.split("/", 3)
    stem = stem_of(file)
    words = crate if stem == name else f"{crate}/{stem}"
    return f"[`{words}`](../{path})"


def own_first(name, paths):
    """Paths, those that are named after a construct first."""
    return sorted(paths, key=lambda it: stem_of(os.path.basename(it)) != name)


def files(name, room, found):
    """The links of a construct in a room, one a line, or why it has none."""
    once = [*dict.fromkeys(link(name, it) for it in own_first(name, found.get((name, room), [])))]
    if once:
        return [f"- {room}:", *(f"  {it}," for it in once[:-1]), f"  {once[-1]}"]
    return [f"- {room}: {WITHOUT[name, room]}"] if (name, room) in WITHOUT else []


def section(name, rooms, found):
    """The section of a construct, and whether it has a grammar."""
    rules = grammar(own_first(name, found.get((name, "Reader"), [])))
    lines = ["", f"## `{name}`", ""]
    lines += [*(f"    {it}" for it in rules), ""] if rules else []
    for room in rooms:
        lines += files(name, room, found)
    return lines, bool(rules)


HEAD = """# Constructs

A file has the name of its construct, which is the name of its switch in `Constructs`: `code_text.rt` in code, `CodeText.antt` in specifications. The prefix of its crate says what is done there. So an entry names a crate, and the file only where that has another name: it is shared by several constructs, or one more of this one.

| Entry | Files |
|---|---|
| Definition | what the construct is, as definitions; its events, in `event_definition` |
| Reader | from a text to rows |
| Printer | from rows to HTML |
| Events | from rows to events (`parse_`), and from events to HTML (`compile_`) |
| States | the machines of the road by states |
| Proofs | specifications and lemmas of these |
| Laws, Tests | what follows for every text; texts and pages |

Each name of an event has a row in the tables of names: `VOID_EVENTS`, the grammar of `event_grammar` and its spans, the bytes of `event_tokens`, the meaning of `event_meaning`, the switches of `parse_grammar`, and the numbers for C. [CONTRIBUTING](../CONTRIBUTING.md#recipes) names their files.

Not listed, since it holds all of them: what a block prints is defined in [`BlockPieces.antt`](../crates/definition_page/specs/BlockPieces.antt), what a part of a text prints in [`InlinePieces.antt`](../crates/definition_page/specs/InlinePieces.antt), and both are read to a page in [`Read.antt`](../crates/definition_page/specs/Read.antt).

`bin/constructs.py` writes this page, and fails where a construct lacks a file that it needs.
"""


# A section at a file's head, as `CommonMark 4, 5 and appendix, phase 1` or `GFM 6.5`; or none.
SECTION = r"(?:[0-9.]*[0-9]|appendix(?:, phase [12])?)"
CITED = re.compile(rf"(CommonMark|GFM) ({SECTION}(?:(?:, | and ){SECTION})*)|in (?:neither|no) standard|in neither CommonMark nor GFM")


def sections_of(sentence):
    """The sections that a sentence names, each as a standard and a number."""
    for found in CITED.finditer(sentence):
        if found[1] is None:
            yield "none", ""
        else:
            yield from ((found[1], it) for it in re.findall(SECTION, found[2]))


def section_order(section):
    """CommonMark before GFM before neither; numbers in order, and then the appendix."""
    standard, number = section
    parts = [int(it) for it in number.split(".")] if re.fullmatch(r"[0-9.]+", number) else [99]
    return ("CommonMark", "GFM", "none").index(standard), parts, number


def sections():
    """The table of the definition's files by section."""
    rows = {}
    for crate in ("definition_text", "definition_inline", "definition_block", "definition_page"):
        for part, path in files_of(crate):
            first = text_of(path).split("\n", 1)[0]
            if part == "specs" and first.startswith("-- "):
                for section in dict.fromkeys(sections_of(first)):
                    rows.setdefault(section, []).append((crate, path))
    lines = ["", "## By section of the standards", "", "The first line of each file of the definition says what it is about, and the section.", ""]
    lines += ["| Section | Files |", "|---|---|"]
    for section in sorted(rows, key=section_order):
        files = ", ".join(f"[`{os.path.basename(path)}`](../{path})" for _, path in rows[section])
        lines.append(f"| {'in neither' if section[0] == 'none' else ' '.join(section)} | {files} |")
    return lines


def is_read(name, found):
    """Whether a construct has a reader, or needs none."""
    return (name, "Reader") in found or (name, "Reader") in WITHOUT


def verdict_gaps():
    """Where the list of verdicts and the functions of their crate differ, and where the README gives other numbers of them."""
    table = re.search(r"(?s)<!-- verdicts -->\n(.*?)<!-- end of verdicts -->", text_of(PROVED))
    rows = [[cell.strip() for cell in row.strip("|").split("|")] for row in table[1].splitlines()[2:]] if table else []
    said = [name for row in rows for cell in row[2:] for name in re.findall(r"`(\w+)`", cell)]
    there = [name for file in names_in(VERDICTS) for name in re.findall(r"(?m)^pub fn (\w+_(?:verdict|choice))\b", text_of(f"{VERDICTS}/{file}"))]
    yield from (f"{PROVED} lists {it}, which {VERDICTS} lacks" for it in said if it not in there)
    yield from (f"{PROVED} lists {it} {said.count(it)} times, not once" for it in there if said.count(it) != 1)
    rows = [row for row in rows if row[0] not in ("flow", "text")]
    whole = {row[0] for row in rows if row[1].startswith("all") or "whole" in row[1]}
    sentence = f"Of {NUMBERS[len({it for row in rows for it in row[0].split(', ')})]} constructs attempts agree with the definition there: all of {NUMBERS[len(whole)]},"
    if sentence not in text_of("README.md"):
        yield f"README.md doesn't say {sentence!r}"


def page():
    """The page, and the gaps."""
    names = switches()
    found = places(set(names))
    standing = [it for it in names if any((it, room) in found for room in NEEDED)]
    rooms = [it for it in ROOMS if any((name, it) in found for name in standing)]
    lines = [HEAD.rstrip("\n")]
    gaps = [*stale_entries(names), *verdict_gaps()]
    for name in standing:
        more, has_grammar = section(name, rooms, found)
        lines += more
        if is_read(name, found):
            lacking = [it for it in NEEDED if (name, it) not in found and (name, it) not in WITHOUT]
            gaps += [f"{name} has no {it.lower()}" for it in lacking]
            gaps += [] if has_grammar else [f"{name} has no grammar at its reader's head"]
    absent = [f"`{it}`" for it in names if not is_read(it, found)]
    if absent:
        lines += ["", f"Not read so far: {', '.join(absent)}."]
    lines += sections()
    return "\n".join(lines) + "\n", gaps


def main(words):
    if words not in ([], ["--check"]):
        sys.exit(__doc__)
    text, gaps = page()
    if not words:
        with open(PAGE, "w", encoding="utf-8") as file:
            file.write(text)
    elif not os.path.isfile(PAGE) or text_of(PAGE) != text:
        gaps.append("docs/CONSTRUCTS.md is not what bin/constructs.py writes: run it")
    if gaps:
        sys.exit("\n".join(gaps))
    return 0


if __name__ == "__main__":
    sys.exit(main(sys.argv[1:]))
