#!/usr/bin/env python3
"""The wrong bodies of crates/*/wrong, and their table, bench/wrong.tsv. bench/wrong.sh tries them.

    wrong.py names [CRATE..]   the crates that have some, of these or of all, in the order of crates.txt
    wrong.py write CRATE       writes the rows of a crate from what `rt must-fail` says of it on the standard input; prints them,
                               and fails if an edit shows nothing
    wrong.py seal CRATE..      notes the checksum of today for all edits of these crates, without trying them: only if their
                               clauses and specs merely moved, as from one crate to another
    wrong.py check             fails if an edit can't be applied, has no comment or no row, or if the clauses or specs of its crate
                               have changed since it was refused
    wrong.py twins             fails if a function of wrong_bodies has another contract than the one that it stands for

The first line of an edit is a comment, `# ` and what is wrong with the body. The seal of an edit is the checksum of what its crate
promises, its clauses and its specs, when the edit was refused. `to be tried` means that these have changed since: `check` names such
edits and passes.
"""
import datetime
import hashlib
import re
import sys
from pathlib import Path

TOP = Path(__file__).resolve().parent.parent
TABLE = TOP / "bench" / "wrong.tsv"
HEAD = ("crate", "edit", "what is wrong", "refused by", "tried", "seal")
TO_BE_TRIED = "to be tried"
# What `rt must-fail` says of an edit.
SAID = re.compile(r"rt: must-fail (\w+)/([\w.-]+)\.edit: (.*)")
REFUSED, NOT_TRIED = "refused, as it must be", "NOT TRIED"
# A clause or a ghost item, up to the next line that begins another item.
CLAUSE = re.compile(r"(?ms)^\s*(?:requires|ensures\*?|ghost)\b.*?(?=^\s*(?:requires|ensures|ghost|\{|fn|pub|use|const|#|//|impl|$))")


def edits():
    """The edits by crate, crates in the order of crates.txt."""
    text = (TOP / "crates.txt").read_text(encoding="utf-8")
    crates = re.findall(r"(?m)^([a-z0-9_]+)[^:#\n]*:", text)
    found = {name: sorted((TOP / "crates" / name / "wrong").glob("*.edit")) for name in crates}
    return {name: files for name, files in found.items() if files}


def fault_of(file):
    """What is wrong with the body that an edit makes: its comment."""
    first = file.read_text(encoding="utf-8").partition("\n")[0]
    return first[2:] if first.startswith("# ") else ""


def unfit(file):
    """Why an edit can't be applied to its crate, or None."""
    path = old = None
    texts = {}
    for line in file.read_text(encoding="utf-8").split("\n"):
        if line.startswith("file: "):
            path = file.parent.parent / line[len("file: "):].strip()
        elif line.startswith("old: "):
            old = line[len("old: "):]
        elif line.startswith("new:"):
            if path is None or old is None or not path.is_file():
                return "it names no file, or no text in it"
            text = texts.get(path) or path.read_text(encoding="utf-8")
            if text.count(old) != 1:
                return f"its text is in {path.relative_to(TOP)} {text.count(old)} times"
            texts[path], old = text.replace(old, line[len("new:"):].removeprefix(" ")), None
    return None if texts else "it changes nothing"


# Seals.


def seal_of(specs, sources):
    """The checksum of the definitions in these texts of specs, and of the clauses in these texts of code."""
    said = [" ".join(re.sub(r"(?m)^use .*$|\s*--.*$", "", text).split()) for text in specs]
    for text in sources:
        said += [" ".join(it.split()) for it in CLAUSE.findall(text) if not it.strip().startswith("ghost use")]
    return hashlib.sha256("\n".join(sorted(said)).encode()).hexdigest()[:12]


def seal(crate):
    """The seal of a crate as it is now."""
    folder = TOP / "crates" / crate
    specs = [it.read_text(encoding="utf-8") for it in sorted((folder / "specs").rglob("*.antt")) if it.name != "Lib.antt"]
    sources = [it.read_text(encoding="utf-8") for it in sorted((folder / "src").rglob("*.rt"))]
    return seal_of(specs, sources)


# What the prover said.


def refusal(said):
    """What refused an edit, in a few words, and whether that shows something of a contract."""
    if not said.startswith(REFUSED):
        return said.partition(":")[0].lower(), False
    told = said[len(REFUSED):]
    if told.startswith(" (only because"):
        return "a proof file alone", False
    if told.startswith(" (only by a limit"):
        return "a limit of the prover", True
    return short(told.removeprefix(": ")), True


def short(told):
    """The function and the goal that a message of the prover is of, or else the file and what it says."""
    match = re.match(r"(?:note: )?(?:\./)?(\S+?):\d+:\d+: (?:error: |note: )?(.*)", told)
    place, words = (match[1], match[2]) if match else ("", told)
    goal = re.search(r"\(`([\w-]+)`\)", words) or re.match(r"`([\w-]+)`:", words)
    place = re.sub(r"^proofs/(.*)/(Answers|Invariants|Proof)\.antt$", lambda it: it[1].replace("/", "::"), place)
    return f"{place}: {goal[1] if goal else words}".replace("\t", " ")


# The table.


def known():
    """What refused each edit, when, and the seal of then, by crate and edit."""
    lines = TABLE.read_text(encoding="utf-8").splitlines()[1:] if TABLE.is_file() else []
    return {(row[0], row[1]): tuple(row[3:6]) for row in (line.split("\t") for line in lines)}


def write(tried):
    """Writes the table with what was found of these edits; the others keep what it says of them."""
    told = known() | tried
    rows = [HEAD]
    for name, files in edits().items():
        for file in files:
            rows.append((name, file.stem, fault_of(file), *told.get((name, file.stem), ("", "", TO_BE_TRIED))))
    TABLE.write_text("".join("\t".join(row) + "\n" for row in rows), encoding="utf-8")


def names(wanted):
    found = edits()
    for name in wanted:
        if name not in found:
            sys.exit(f"{name} has no edit in crates/{name}/wrong")
    print("\n".join(name for name in found if not wanted or name in wanted))


def note(crate):
    """Notes what was said of the edits of a crate."""
    log, today, now = sys.stdin.read(), str(datetime.date.today()), seal(crate)
    said = {match[2]: match[3] for match in SAID.finditer(log) if match[1] == crate}
    tried, sound = {}, True
    for file in edits()[crate]:
        by, shows = refusal(said.get(file.stem, NOT_TRIED))
        print(f"{'' if shows else 'FAILED: '}{crate}/{file.stem}: {by}", flush=True)
        sound = sound and shows
        if by != NOT_TRIED.lower():
            tried[crate, file.stem] = by, today, now if shows else TO_BE_TRIED
    if not sound:
        print(log, end="", flush=True)
    write(tried)
    return 0 if sound else 1


def seal_again(crates):
    told, found = known(), edits()
    names(crates)
    write({(name, file.stem): (*told.get((name, file.stem), ("", ""))[:2], seal(name)) for name in crates for file in found[name]})
    return 0


def check():
    faults, told, left = [], known(), 0
    for name, files in edits().items():
        now = seal(name)
        for file in files:
            place = file.relative_to(TOP)
            if why := unfit(file):
                faults.append(f"{place}: can't be applied: {why}")
            if not fault_of(file):
                faults.append(f"{place}: its first line is no comment")
            then = told.pop((name, file.stem), None)
            if then is None:
                faults.append(f"{place}: it has no row in bench/wrong.tsv")
            elif then[2] == TO_BE_TRIED:
                left += 1
                print(f"{place}: to be tried: the clauses or specs of its crate have changed since it was refused")
            elif then[2] != now:
                faults.append(f"{place}: the clauses or specs of its crate have changed since it was refused: run bench/wrong.sh {name}")
    faults += [f"bench/wrong.tsv has a row for {name}/{edit}, which isn't there" for name, edit in told]
    print("".join(f"{it}\n" for it in faults), end="", file=sys.stderr)
    print(f"wrong bodies: {sum(map(len, edits().values())) - left} sealed, {left} to be tried")
    return 1 if faults else 0


# Twins: functions of wrong_bodies with the contracts of others.


def contracts(text, name):
    """The contracts of the functions of this name in a file: their clauses, comments aside."""
    for head in re.finditer(rf"(?m)^( *)(?:pub(?:\(\w+\))? )?(?:const )?fn {name}\b", text):
        body = re.compile(rf"(?m)^{head[1]}\{{").search(text, head.end())
        said = re.sub(r"(?m)^\s*//.*$", "", text[head.end():body.start()])
        first = re.search(r"(?m)^\s*(requires|ensures)\b", said)
        yield " ".join(said[first.start():].split()) if first else ""


def contracts_in(crate, name):
    for file in sorted((TOP / "crates" / crate / "src").rglob("*.rt")):
        yield from contracts(file.read_text(encoding="utf-8"), name)


def words_of(contract):
    return set(re.findall(r"[A-Za-z]\w*", contract))


def twins():
    """Compares each function that the README of wrong_bodies lists with the calls that it names."""
    folder, faults, seen = TOP / "crates" / "wrong_bodies", [], set()
    for row in re.findall(r"(?m)^\| `(\w+)::(\w+)` \| .* \| (.*) \|$", (folder / "README.md").read_text(encoding="utf-8")):
        module, name, calls = row[0], row[1], re.findall(r"`(\w+)(?:::\w+)*::(\w+)`", row[2])
        seen.add((module, name))
        source = (folder / "src" / f"{module}.rt").read_text(encoding="utf-8")
        own, true = next(contracts(source, name), ""), [list(contracts_in(*call)) for call in calls]
        if not own or not calls or not all(true):
            faults.append(f"wrong_bodies: {module}::{name}: no contract, or a call that isn't there: {row[2]}")
        elif row[2].startswith("its own, by the words of "):
            specs = set(re.findall(r"\w+", " ".join(re.findall(r"(?m)^ghost use (?!Rattle\.std\.).*?\{(.*)\};$", source))))
            if missing := (words_of(own) & specs) - set().union(*(words_of(it) for group in true for it in group)):
                faults.append(f"wrong_bodies: {module}::{name}: words that no contract of its calls has: {', '.join(sorted(missing))}")
        elif own not in true[0]:
            faults.append(f"wrong_bodies: {module}::{name} has another contract than {row[2]}")
    for file in sorted((folder / "src").glob("*.rt")):
        text = file.read_text(encoding="utf-8")
        if re.search(r"(?m)^ghost use .*\bas\b", text):
            faults.append(f"{file.relative_to(TOP)}: a word of a contract has another name")
        faults += [f"wrong_bodies: {file.stem}::{name} isn't in its README" for name in re.findall(r"(?m)^pub fn (\w+)", text)
                   if (file.stem, name) not in seen]
    print("".join(f"{it}\n" for it in faults), end="", file=sys.stderr)
    return 1 if faults else 0


def main(words):
    if words[:1] == ["names"]:
        return names(words[1:])
    if words[:1] == ["write"] and len(words) == 2:
        return note(words[1])
    if words[:1] == ["seal"] and len(words) > 1:
        return seal_again(words[1:])
    if words == ["check"]:
        return check() or twins()
    if words == ["twins"]:
        return twins()
    sys.exit(__doc__)


if __name__ == "__main__":
    sys.exit(main(sys.argv[1:]))
