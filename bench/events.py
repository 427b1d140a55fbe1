#!/usr/bin/env python3
"""Lists of events and their faults: the model beside the code.

    events.py table MODEL                              writes the stored run of crates/tests_events
    events.py table MODEL --check                      fails where the stored run is not what would be written
    events.py compare MODEL [LISTS] [SEED] [PROGRAM]   compares the faults of random lists
    events.py speed MODEL TEXT .. [--program PROGRAM]  prints the events of texts, instructions an event, events a second

MODEL is the folder of a program apart from this repository, whose `events.py` has `events_of`, `check`, `mutations` and
`random_list`. PROGRAM is crates/tests_events, built by `rt run`; its input is described in that crate's README.
"""
import os
import random
import re
import subprocess
import sys
import time

HERE = os.path.dirname(os.path.abspath(__file__))
CRATE = os.path.join(HERE, os.pardir, "crates", "tests_events")
PROGRAM = os.path.join(CRATE, "out", "tests_events")
# Texts whose lists have each row of the grammar.
TEXTS = [
    "", "a", "---\na\n---\n", "> a\n>b", "> *a*\n> b", "1. a\n2. b", "- a\n\n  b\n- c", "[^a]: b\n\n[^a]", "    a\n    b",
    "``` a b\nc\n```", "~~~\na", "$$ a\nb\n$$", "<div>\na", "a <b\nc> d", "***", "[a]: <b> 'c'\n\n[a]", "[a]\n\n[a]: b", "# a #", "a\n===",
    "| a | b |\n| :- | -: |\n| c |", "\\* &amp; &#35; &#x22;", "<ab:c> <d@e.f>", "`a` $b$", "*a* __b__ ~~c~~", "==a *b*== c", "[a](b 'c') ![d](<e>)",
    "![a][b] [b][]\n\n[b]: c", "- [x] a\n- [ ] b", "> [a\n> b]: c\n\n[a b]", "-\ta\n\n\tb", ">\t\ta", "\ufeffa", "a\\\nb  \nc",
    "www.a.b c@d.e http://f.g", "é&ngE;", "a\r\nb\rc", "1.\n\n10) a",
]
# Texts whose lists are asked only how loose they are, and how a table is aligned.
MORE_TEXTS = [
    "| a | b | c |\n| :- | -: | :-: |", "|a|\n|-|\n|b|", "- a\n- b\n\n- c", "- a\n  - b\n\n    c\n- d", "1. a\n\n\n2. b", "-\n\n- a", "- > a\n\n- b",
    "> - a\n>\n> - b", "- [a]: b\n\n  c", "- a\n\n- b\n\n\n  c", "- a\r\n\r\n  b", "- a\n  ```\n\n  ```\n- b", "-\n  a\n- b\n\nc", "- [^a]\n\n[^a]: - b\n\n    - c",
]
CONSTRUCTS = ["math_text", "math_flow", "frontmatter", "mark"]


def model_at(path):
    """The model's modules `events` and `md`, and its table of names."""
    sys.path.insert(0, path)
    import events
    import fuzz_texts
    import md
    import tables
    sys.setrecursionlimit(10000)
    options = md.Options(gfm=True, on=CONSTRUCTS)
    names = tables.Tables(None)

    class Model:
        NAMES, Event = events.NAMES, events.Event
        each, nested, mutations, random_list = events.each, events.nested, events.mutations, events.random_list
        random_text = fuzz_texts.random_text

        @staticmethod
        def list_of(text):
            return events.events_of(text, options, names)

        @staticmethod
        def answer(found, data):
            fault = events.check(found, data, names)
            return "%s %d" % fault if fault else "ok"

        @staticmethod
        def queries(found, data):
            """Lines that ask a list in the grammar for more, with the answers."""
            word = {True: "true", False: "false", None: "None"}
            for it in events.each(events.nested(found)):
                if it.name in ("ListOrdered", "ListUnordered"):
                    loose = [word[events.list_loose(found, data, it.i, items)] for items in (False, True)]
                    yield "loose %d" % it.i, " ".join(loose)
                elif it.name == "ListItem":
                    yield "item %d" % it.i, word[events.list_item_loose(found, data, it.i)]
                elif it.name == "GfmTable":
                    aligns = events.gfm_table_align(found, data, it.i)
                    yield "align %d" % it.i, " ".join((it or "none").capitalize() for it in aligns)
    return Model


# ---- lines of the program's input
def text_line(data):
    return "text " + "".join(chr(b) if 32 <= b < 127 and b != 92 else "\\%02X" % b for b in data)


def point(event):
    return "%d.%d" % (event.index, event.vs) if event.vs else "%d" % event.index


def list_line(events):
    words = ("%s%s:%s" % ("+" if it.kind == "enter" else "-", it.name, point(it)) for it in events)
    return " ".join(["list", *words])


# ---- lists with one thing wrong
def edits(model, events):
    """Lines of edits of a list, with the edited lists."""
    size, names = len(events), sorted({it.name for it in events})
    for k, event in enumerate(events):
        yield "span %d %d" % (k, k), events[:k] + events[k + 1:]
        if k + 1 < size:
            yield "swap %d" % k, events[:k] + [events[k + 1], event] + events[k + 2:]
        moved = event.but(index=event.index + (1 if k % 3 else -1 if event.index else 2), vs=k % 7 // 6)
        yield "move %d %s" % (k, point(moved)), events[:k] + [moved] + events[k + 1:]
    for it in model.each(model.nested(events)):
        if it.i < 0:
            continue
        if it.j > it.i + 1:
            yield "span %d %d" % (it.i, it.j), events[:it.i] + events[it.j + 1:]
        yield "pair %d %d" % (it.i, it.j), events[:it.i] + events[it.i + 1:it.j] + events[it.j + 1:]
        for name in (names[(names.index(it.name) + 1) % len(names)], model.NAMES[(it.i * 37 + size * 11) % len(model.NAMES)]):
            if name != it.name:
                renamed = [e.but(name=name) if k in (it.i, it.j) else e for k, e in enumerate(events)]
                yield "name %d %d %s" % (it.i, it.j, name), renamed


def table(model):
    """The stored run: what the program reads, and the model's answers."""
    lines, answers, seen, count = [], [], set(), 0
    for text in TEXTS + MORE_TEXTS:
        data, events = text.encode(), model.list_of(text)
        seen.update(it.name for it in events)
        lines += [text_line(data), list_line(events)]
        answers.append(model.answer(events, data))
        for line, answer in model.queries(events, data):
            lines.append(line)
            answers.append(answer)
        for line, edited in edits(model, events) if text in TEXTS else ():
            lines.append(line)
            answers.append(model.answer(edited, data))
            count += 1
    print("%d lists, %d edits, %d names" % (len(TEXTS + MORE_TEXTS), count, len(seen)))
    more, their_answers = others()
    return {"stdin": "\n".join(lines + more) + "\n", "stdout": "\n".join(answers + their_answers) + "\n"}


def others():
    """What the stored run has besides, from the first page on: lines that are not the model's, and their answers."""
    with open(os.path.join(CRATE, "stdin"), encoding="utf-8") as file:
        lines = file.read().splitlines()
    with open(os.path.join(CRATE, "stdout"), encoding="utf-8") as file:
        answers = file.read().splitlines()
    at = next(k for k, line in enumerate(lines) if line.startswith("page "))
    count = sum(not line.startswith("text ") for line in lines[at:])
    return lines[at:], answers[len(answers) - count :]


def write_table(model, check):
    for file, wanted in table(model).items():
        path = os.path.join(CRATE, file)
        if not check:
            with open(path, "w", encoding="utf-8") as out:
                out.write(wanted)
        elif open(path, encoding="utf-8").read() != wanted:
            sys.exit("%s is not what bench/events.py writes" % os.path.relpath(path))


# ---- random lists
LABELS = ["a", "b", "A", " a", "a  b", "a b", "a\nb", "ẞ", "ss", "\\]", "&amp;", "*a*", "a\tb", "é", "É", "ab", ""]
REFERENCES = ["[%s]", "[%s][]", "[a][%s]", "![%s]", "![b [c] d][%s]", "[^%s]", "[%s](x)", "\n\n[%s]: x\n\n", "\n\n[^%s]: x\n\n", " %s", "\n%s"]
LABEL_EVENTS = ("DefinitionLabelString", "LabelText", "ReferenceString", "GfmFootnoteDefinitionLabelString")
FACT_EVENTS = LABEL_EVENTS + ("LineEnding", "BlankLineEnding", "ListItemValue", "HeadingAtxSequence", "CharacterReferenceValue",
                              "BlockQuotePrefix")


def referring(rng):
    """A text of references and definitions, also in a quote."""
    text = "".join(rng.choice(REFERENCES) % rng.choice(LABELS) for _ in range(rng.randint(1, 6)))
    front = rng.choice(["", "", "> ", ">", ">\t"])
    return "\n".join(front + line for line in text.split("\n"))


def undefined(model, rng, events):
    """The list without some of its definitions."""
    gone = {k for it in model.each(model.nested(events)) if it.name in ("Definition", "GfmFootnoteDefinition") and rng.random() < 0.6
            for k in range(it.i, it.j + 1)}
    return [it for k, it in enumerate(events) if k not in gone]


def relabelled(rng, events, data):
    """The text with another byte at the start of a label."""
    starts = [it.index for it in events if it.kind == "enter" and it.name in LABEL_EVENTS and it.index < len(data)]
    if not starts:
        return data
    at = rng.choice(starts)
    return data[:at] + bytes([rng.choice(b"aAb \t\n>]")]) + data[at + 1:]


def tabbed(rng, events, data):
    """A tab more in the text, and events some columns into it: at an event whose bytes are looked at, mostly."""
    if not events:
        return events, data
    near = [k for k, it in enumerate(events) if it.name in FACT_EVENTS and rng.random() < 0.6]
    first = rng.choice(near or range(len(events)))
    at, vs, out = events[first].index, 0, []
    last = first + rng.choice([0, 1, 1, 2, 3])
    for k, it in enumerate(events):
        if first <= k < last and it.index == at:
            vs = min(3, vs + rng.choice([0, 1, 1, 2]))
            out.append(it.but(vs=vs))
        else:
            out.append(it if k < first else it.but(index=it.index + 1))
    return out, data[:at] + b"\t" + data[at:]


def random_lists(model, rng):
    """Lists of random texts and of the grammar alone, each followed by lists with one thing wrong or more."""
    while True:
        if rng.random() < 0.6:
            text = model.random_text(rng) if rng.random() < 0.5 else referring(rng)
            data, events = text.encode(), model.list_of(text)
        else:
            events, data = model.random_list(rng, rng.choice([10, 20, 40]), rng.choice([0, 0, 0.1, 0.3]))
        yield events, data
        yield tabbed(rng, events, data)
        if any(it.name.endswith("Definition") for it in events):
            yield undefined(model, rng, events), data
            yield events, relabelled(rng, events, data)
        for _, mutated, changed in model.mutations(rng, events, data, 4):
            yield mutated, changed


def compare(model, count, seed, program):
    asked, wanted, kinds = [], [], {}
    lists = random_lists(model, random.Random(seed))
    while sum(kinds.values()) < count:
        events, data = next(lists)
        asked += [text_line(data) + "\n" + list_line(events)]
        wanted.append(model.answer(events, data))
        kind = wanted[-1].split()[0]
        kinds[kind] = kinds.get(kind, 0) + 1
        for line, answer in model.queries(events, data) if kind == "ok" else ():
            asked.append(line)
            wanted.append(answer)
    run = subprocess.run([program], input="\n".join(asked) + "\n", capture_output=True, check=True, text=True)
    found = run.stdout.splitlines()
    assert len(found) == len(wanted), len(found)
    differing = [k for k in range(len(found)) if found[k] != wanted[k]]
    for k in differing[:10]:
        print("%s\ncode %s, model %s" % (asked[k], found[k], wanted[k]))
    print("%d lists of seed %d, %d lines, %d differences: %s" % (count, seed, len(found), len(differing), kinds))
    return 1 if differing else 0


# ---- speed
def joined(model, text):
    """A list of a long text: those of its parts between empty lines, one behind another."""
    all_events, data = [], b""
    for part in re.findall(r"(?s).+?(?:\n\n+|\Z)", text):
        all_events += [it.but(index=it.index + len(data)) for it in model.list_of(part)]
        data += part.encode()
    return all_events, data


def instructions(program, lines, times):
    words = ["valgrind", "--tool=callgrind", "--callgrind-out-file=/dev/null", program, str(times)]
    run = subprocess.run(words, input=lines, capture_output=True, check=True, text=True)
    return int(re.search(r"Collected : (\d+)", run.stderr).group(1))


def seconds(program, lines, times):
    best = None
    for _ in range(5):
        start = time.perf_counter()
        subprocess.run([program, str(times)], input=lines, capture_output=True, check=True, text=True)
        took = time.perf_counter() - start
        best = took if best is None else min(best, took)
    return best


def speed(model, paths, program):
    for path in paths:
        with open(path, encoding="utf-8") as file:
            events, data = joined(model, file.read())
        lines = "%s\n%s\n" % (text_line(data), list_line(events))
        answer = model.answer(events, data)
        size = len(events)
        each = (instructions(program, lines, 11) - instructions(program, lines, 1)) / 10 / size
        took = (seconds(program, lines, 2001) - seconds(program, lines, 1)) / 2000
        print("%s: %d bytes, %d events (%s), %.0f instructions an event, %.1f million events a second" % (
            os.path.basename(path), len(data), size, answer, each, size / took / 1e6), flush=True)


def main(words):
    if len(words) < 2 or words[0] not in ("table", "compare", "speed"):
        sys.exit(__doc__)
    program = PROGRAM
    if "--program" in words[:-1]:
        k = words.index("--program")
        program = words[k + 1]
        del words[k:k + 2]
    model, rest = model_at(words[1]), words[2:]
    if words[0] == "table":
        return write_table(model, rest == ["--check"])
    if words[0] == "speed":
        return speed(model, rest, program)
    numbers = [int(it) for it in rest if it.isdigit()]
    programs = [it for it in rest if not it.isdigit()] or [program]
    return compare(model, *(numbers + [20000, 1][len(numbers):]), programs[0])


if __name__ == "__main__":
    sys.exit(main(sys.argv[1:]))
