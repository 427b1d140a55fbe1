#!/usr/bin/env python3
"""Writes the parts of docs/EVENTS.md that are made from the code: the grammar, and the example.

usage: bin/events.py            writes them
       bin/events.py --check    fails where the page has others

The grammar is read from crates/event_grammar/src and crates/event_faults/src, the example's list from the stored run of
crates/tests_events. Both ways fail where a name has no row and isn't void, or a row names what is no event; where the header for C,
the specification of its numbers or the modules for Python, Rust and JavaScript have other names; where a number of the header isn't
that of .ci/numbers, or where code or a module has another one; and where a name that a list may have is in no stored run.
"""
import glob
import os
import re
import sys

TOP = os.path.dirname(os.path.dirname(os.path.realpath(__file__)))
PAGE = os.path.join(TOP, "docs", "EVENTS.md")
# The rows, and the row of the document.
SOURCES = [os.path.join(TOP, "crates", it, "src") for it in ("event_grammar", "event_faults")]
NAMES = os.path.join(TOP, "crates", "engine_events", "src", "event.rt")
# Where the names are listed once more, in the order of their numbers, and how.
LISTS = {
    "include/markdown.h": r'EACH\(\w+, "(\w+)", \d+\)',
    "crates/markdown_buffers/specs/EventNumbers.antt": r"(?m)^name_number names\.(\w+) = \d+$",
    "packaging/python/markdown_proved/_names.py": r"\b([A-Z]\w+)(?=[ \n])",
    "examples/rust/names.rs": r'"([A-Z]\w+)"',
    "web/names.mjs": r"\b([A-Z]\w+)(?=[ \n])",
}
HEADER = os.path.join(TOP, "include", "markdown.h")
# Modules that have numbers of the header.
MODULES = ["packaging/python/markdown_proved/_library.py", "web/markdown.mjs", "examples/rust/markdown.rs"]
# The numbers of the header that are released.
NUMBERS = os.path.join(TOP, ".ci", "numbers")
RUN = os.path.join(TOP, "crates", "tests_events", "stdin")
# The program whose stored runs have each name that a list of `parse` may have, and the names that none has: those of the
# state machines alone and of MDX.
PROGRAM = os.path.join(TOP, "crates", "markdown_events")
NEVER = {"AttentionSequence", "Content", "MdxEsm", "MdxFlowExpression", "MdxTextExpression", "MdxJsxFlowTag", "MdxJsxTextTag"}
# The text of the example, as it is written in the stored run.
EXAMPLE = "> *a*\\0A> b"
# What a form says behind a name.
FORMS = {"Ordered": "in `ListOrdered`", "Closing": "the second", "OfImage": "in `Image`", "OfCall": "in `GfmFootnoteCall`"}
# What stands behind such a name where it has no form.
PLAIN = {"ListItemPrefix": "in `ListUnordered`", "CodeFencedFence": "the first", "MathFlowFence": "the first", "Label": "in `Link`"}
CLASSES = {"Block": "block", "StringPart": "string", "TextPart": "text"}


def text_of(path):
    with open(path, encoding="utf-8") as file:
        return file.read()


def fail(why):
    sys.exit(f"bin/events.py: {why}")


def sources():
    return "\n".join(text_of(os.path.join(folder, it)) for folder in SOURCES for it in sorted(os.listdir(folder)) if it.endswith(".rt"))


# ---- the code
def event_names():
    """The names of events, in the order of their numbers."""
    return re.findall(r"(?m)^    (\w+),", re.search(r"pub enum Name \{(.*?)\n\}", text_of(NAMES), re.S)[1])


def check_lists():
    """Fails where a list for C, Python or Rust has other names, or another order or number."""
    for path, form in LISTS.items():
        text = text_of(os.path.join(TOP, path))
        if path.endswith((".py", ".mjs")):
            text = re.search(r'EVENT_NAMES = (?:"""|`)(.*?)(?:"""|`)', text, re.S)[1]
        if re.findall(form, text) != event_names():
            fail(f"{path} has other names of events than crates/engine_events/src/event.rt")
    header = re.findall(r'EACH\((\w+), "(\w+)", (\d+)\)', text_of(HEADER))
    numbers = re.findall(r"= (\d+)$", text_of(os.path.join(TOP, "crates/markdown_buffers/specs/EventNumbers.antt")), re.M)[-len(header):]
    if [int(it) for it in numbers] != list(range(len(header))):
        fail("EventNumbers.antt skips a number")
    for place, (constant, name, number) in enumerate(header):
        if constant != re.sub(r"(?<=[a-z0-9])(?=[A-Z])", "_", name).upper() or number != str(place):
            fail(f"include/markdown.h: {constant} isn't {name}, or its number isn't {place}")


def check_numbers():
    """Fails where a number of the header isn't the one that it was when it was first released, or is another one's, too."""
    text = text_of(HEADER)
    for body in re.findall(r"enum \{(.*?)\};", text, re.S):
        numbers = re.findall(r"\bMARKDOWN_\w+ = (\d+)", body)
        if len(set(numbers)) != len(numbers):
            fail("include/markdown.h: two names of one enum have the same number")
    now = dict(re.findall(r"\b(MARKDOWN_[A-Z0-9_]+) = (\d+)", text))
    now.update((f"MARKDOWN_EVENT_{constant}", number) for constant, number in re.findall(r'EACH\((\w+), "\w+", (\d+)\)', text))
    for line in text_of(NUMBERS).splitlines():
        constant, _, number = line.partition(" ")
        if constant != "#" and now.get(constant) != number:
            fail(f"include/markdown.h: {constant} was {number}, and numbers never change")
    check_copies(now)


def check_copies(now):
    """Fails where code, or a module for another language, has another number than the header."""
    paths = [os.path.join(TOP, path) for path in MODULES]
    paths += [path for path in glob.glob(os.path.join(TOP, "crates", "markdown_*", "src", "*.rt"))
              if re.search(r"const (DANGEROUS|ROOM): u32", text_of(path))]
    if len(paths) == len(MODULES):
        fail("no crate has the flags of the header")
    for path in paths:
        own = [it for it in re.findall(r"\b([A-Z][A-Z0-9_]*)(?:: u32)? = (\d+)\b", text_of(path)) if "MARKDOWN_" + it[0] in now]
        if not own:
            fail(f"{os.path.relpath(path, TOP)} has none of the header's numbers")
        for name, number in own:
            # A construct may have the name of a flag, such as MARK.
            if number not in (now["MARKDOWN_" + name], now.get("MARKDOWN_CONSTRUCT_" + name)):
                fail(f"{os.path.relpath(path, TOP)}: {name} is {now['MARKDOWN_' + name]} in include/markdown.h")


def check_runs():
    """Fails where a name that a list may have is in no stored run of markdown-events, or one that none has is."""
    runs = os.path.join(PROGRAM, "runs")
    outputs = [os.path.join(PROGRAM, "stdout"), *(os.path.join(runs, it, "stdout") for it in sorted(os.listdir(runs)))]
    text = "\n".join(text_of(it) for it in outputs if os.path.isfile(it))
    found = set(re.findall(r"(?m)^enter (\w+) ", text))
    wrong = found ^ (set(event_names()) - NEVER)
    if wrong:
        fail(f"the stored runs of markdown-events lack {', '.join(sorted(wrong - found)) or 'no name'}; too many: {', '.join(sorted(wrong & found)) or 'none'}")


def constants(source):
    """The lists of names by the names of their constants."""
    found = re.findall(r"const (\w+): \[Name; \d+\] = \[(.*?)\];", source, re.S)
    return {name: re.findall(r"Name::(\w+)", items) for name, items in found}


def matched(source):
    """The lists of names by the tests `fn is_..` that match them."""
    found = re.findall(r"fn (is_\w+)\(name: Name\) -> bool.*?matches!\((.*?)\)\n", source, re.S)
    return {name: re.findall(r"Name::(\w+)", items) for name, items in found}


def group_at(source, start):
    """The text between the bracket at a place and the one that closes it."""
    depth = 0
    for k in range(start, len(source)):
        depth += (source[k] in "([{") - (source[k] in ")]}")
        if depth == 0:
            return source[start + 1:k]
    fail("a bracket isn't closed")


def parts(text):
    """A text at its outer commas."""
    out, depth, last = [], 0, 0
    for k, c in enumerate(text + ","):
        depth += (c in "([{") - (c in ")]}")
        if c == "," and depth == 0:
            out.append(" ".join(text[last:k].split()))
            last = k + 1
    return [it for it in out if it]


def call(text):
    """The name and the arguments of `F(A, B)`."""
    m = re.match(r"(?:\w+::)?(\w+)\(", text)
    if not m:
        return text.split("::")[-1], []
    return m[1], parts(group_at(text, m.end() - 1))


def child(text):
    kind, words = call(text)
    names = [it.split("::")[-1] for it in words]
    if kind in CLASSES:
        return CLASSES[kind]
    if kind == "Either":
        return f"({names[0]} | {names[1]})"
    if kind in ("Only", "As"):
        return names[0]
    fail(f"{text} is no child")


def pattern(items):
    """A row as a pattern."""
    slots = []
    for it in items:
        kind, words = call(it)
        slots.append((kind, child(words[0])))
    out, k = [], 0
    while k < len(slots):
        kind, name = slots[k]
        after = slots[k + 1] if k + 1 < len(slots) else None
        if kind == "One" and after == ("Many", name):
            out.append(name + "+")
            k += 1
        elif kind == "Lead" and after:
            out.append("(%s %s)?" % (name, after[1] + {"Opt": "?", "Many": "*", "One": ""}[after[0]]))
            k += 1
        elif kind in ("One", "Opt", "Many", "Lead"):
            out.append(name + {"One": "", "Opt": "?", "Lead": "?", "Many": "*"}[kind])
        else:
            fail(f"{kind} is no place of a row")
        k += 1
    whole = " ".join(out)
    return whole[1:-1] if re.fullmatch(r"\([^()]*\)", whole) else whole


def arms(body):
    """The arms of a `match` whose right side is a list: what is matched, and the list."""
    for m in re.finditer(r"((?:\w+::\w+\s*\|?\s*)+|_)\s*=>\s*&\[", body):
        yield re.findall(r"::(\w+)", m[1]) or ["_"], parts(group_at(body, m.end() - 1))


def function(source, name):
    m = re.search(r"fn %s\(.*?\)\s*->.*?\n\{" % name, source, re.S)
    return group_at(source, m.end() - 1) if m else fail(f"there is no function {name}")


def rows(source):
    """The rows in their order: name, form, pattern."""
    body = function(source, "row")
    for m in re.finditer(r"Name::(\w+) => (?:&\[|(\w+)\(form\))", body):
        if not m[2]:
            yield m[1], "", pattern(parts(group_at(body, m.end() - 1)))
            continue
        found = [(form, pattern(items)) for forms, items in arms(function(source, m[2])) for form in forms]
        if len({it for _, it in found}) == 1:
            found = [("", found[0][1])]
        for form, it in found:
            yield m[1], PLAIN.get(m[1], "") if form in ("", "_") and len(found) > 1 else FORMS.get(form, ""), it


def document_row(source):
    m = re.search(r"fn document\(.*?rest: &\[", source, re.S)
    return pattern(parts(group_at(source, m.end() - 1))) if m else fail("the document has no row")


# ---- the page
def grammar():
    source = sources()
    lists = matched(source)
    found = [it for it in rows(source)]
    names = event_names()
    void = constants(text_of(NAMES))["VOID_EVENTS"]
    with_row = {name for name, _, it in found if it}
    classes = {"block": lists["is_block"], "string": lists["is_string_part"], "text": lists["is_text_part"]}
    for name in names:
        if (name in with_row) + (name in void) + (name in lists["is_mdx"]) != 1:
            fail(f"{name} isn't one of three: with a row, void, of MDX")
    for name, _, it in found:
        for word in re.findall(r"\w+", it):
            if word not in names and word not in classes:
                fail(f"{word} in the row of {name} is no event")
    lines = [("document", document_row(source))]
    lines += [(name, " | ".join(["string"] + [it for it in own if it not in classes["string"]] if name == "text" else own))
              for name, own in classes.items()]
    joined = {}
    for name, form, it in found:
        if it:
            joined.setdefault(it, []).append(f"`{name}`" + (form and ", " + form))
    lines = [(f"`{name}`", it) for name, it in lines] + [("; ".join(own), it) for it, own in joined.items()]
    ticked = lambda own: ", ".join(f"`{it}`" for it in own)
    out = ["| Event | Its children |", "|---|---|"]
    out += ["| %s | `%s` |" % (name, it.replace("|", "\\|")) for name, it in lines]
    out += ["", "- Every other name is void: it has no children.",
            "- `SpaceOrTab` may stand before, between and after the children of the document and of any event in the table.",
            "- %s may stand there, too, but not at any depth in %s." % (ticked(lists["is_line"]), ticked(lists["is_one_line"])),
            "- No %s stands in one of them, at any depth." % " or ".join(f"`{it}`" for it in lists["is_link"]),
            "- Never in a list: %s." % ticked(lists["is_mdx"])]
    return out


def example():
    """The events of the example, indented, void ones in one line."""
    lines = text_of(RUN).splitlines()
    at = lines.index("text " + EXAMPLE) if "text " + EXAMPLE in lines else fail("the stored run lacks the example")
    text = re.sub(r"\\([0-9A-F]{2})", lambda m: chr(int(m[1], 16)), EXAMPLE)
    out, depth, words, k = ["```text"], 0, lines[at + 1].split()[1:], 0
    while k < len(words):
        sign, name, index = re.match(r"([+-])(\w+):(\d+)", words[k]).groups()
        if sign == "+" and words[k + 1].startswith("-" + name + ":"):
            to = int(words[k + 1].split(":")[1])
            shown = text[int(index):to].replace("\n", "⏎")
            out.append("%3d, %d  %senter and exit %s, %s to %d: `%s`" % (k, k + 1, "  " * depth, name, index, to, shown))
            k += 1
        else:
            depth -= sign == "-"
            out.append("%3d     %s%s %s at %s" % (k, "  " * depth, "enter" if sign == "+" else "exit", name, index))
            depth += sign == "+"
        k += 1
    return out + ["```"]


def page():
    """The page with its parts written anew."""
    text = text_of(PAGE)
    for mark, lines in (("grammar", grammar()), ("example", example())):
        start, end = f"<!-- {mark} -->\n", f"\n<!-- end of the {mark} -->\n"
        if text.count(start) != 1 or text.count(end) != 1:
            fail(f"docs/EVENTS.md lacks the marks of the {mark}")
        before, rest = text.split(start)
        text = before + start + "\n".join(lines) + end + rest.split(end)[1]
    return text


def main(words):
    if words not in ([], ["--check"]):
        sys.exit(__doc__)
    wanted = page()
    check_lists()
    check_numbers()
    check_runs()
    if words and text_of(PAGE) != wanted:
        fail("docs/EVENTS.md is not what bin/events.py writes: run it")
    if not words:
        with open(PAGE, "w", encoding="utf-8") as file:
            file.write(wanted)


if __name__ == "__main__":
    main(sys.argv[1:])
