#!/usr/bin/env python3
"""Runs the gate and takes the time of each crate; writes bench/gate.tsv, and what GATE.md and CONTRIBUTING.md say of it.

usage: bin/gate.py run LOG [--anew]   runs `rt ci [--anew]` at the top of the repository; LOG gets what it says, and times at the end
       bin/gate.py write [LOG]        writes bench/gate.tsv from LOG, which may be the output of `rt ci` alone, and keeps the rows of
                                       crates that LOG doesn't name; then the sums in docs/GATE.md and the costs in CONTRIBUTING.md
       bin/gate.py change CRATE..     prints what a change of each of these crates costs, with all above it
       bin/gate.py check              fails if a sum or a cost is another than bench/gate.tsv gives, if the gate exceeds its budget,
                                       or if a path in backticks of CONTRIBUTING.md doesn't exist

`rt ci` tells no times. So `run` looks at its jobs four times a second: a job is a process that it starts, with all that
this one starts, and its time is processor time. What a job takes after the last look at it is missed.

What has no seconds is estimated by a rule: a crate takes 6 seconds and 2.4 for each function, a program 40 more, tests 6 seconds, 2.4
for each function and 3 for each test; the first edit takes as long as the proof, and each further one 25 seconds.
"""
import datetime
import functools
import heapq
import os
import re
import subprocess
import sys
import threading
import time

TOP = os.path.dirname(os.path.dirname(os.path.realpath(__file__)))
PAGE, COSTS_PAGE = os.path.join(TOP, "docs", "GATE.md"), os.path.join(TOP, "CONTRIBUTING.md")
TABLE = os.path.join(TOP, "bench", "gate.tsv")
HEAD = ("crate", "functions", "proof", "tests", "tests' seconds", "edits", "edits' seconds", "seconds from")
SUMS, COSTS = ("<!-- sums -->", "<!-- end of sums -->"), ("<!-- costs -->", "<!-- end of costs -->")
# What the gate may take, in minutes of processor time: on two processors of a loaded machine 200 take 180 of clock.
BUDGET = 200
INTERVAL = 0.25
TICKS = os.sysconf("SC_CLK_TCK")
# The rule for what has no seconds.
A_CRATE, A_FUNCTION, A_PROGRAM, A_TEST, A_FURTHER_EDIT = 6, 2.4, 40, 3, 25
# The crates and groups of crates whose cost CONTRIBUTING.md names.
NAMED = (
    "markdown_options markdown_compile_options definition_text definition_inline definition_block definition_page text_search text_bytes inline_leaves inline_runs "
    "inline_parser block_starts block_parser html_inline html_page markdown markdown_engine event_grammar parse_lines parse_leaves "
    "compile_rows".split()
)
GROUPS = {
    "a law that the calls promise": "laws_quote laws_list laws_endings laws_escape laws_safe_page".split(),
    "`lint_`, `format_`": ("lint_", "format_"),
    "`examples_`, `tests_`": ("examples_", "tests_"),
}


# The jobs of a run.


def processes():
    """Each process: its parent, its own ticks, and those of the children that it has waited for."""
    found = {}
    for name in os.listdir("/proc"):
        if name.isdigit():
            try:
                with open(f"/proc/{name}/stat", encoding="utf-8", errors="replace") as file:
                    words = file.read().rpartition(")")[2].split()
            except OSError:
                continue
            own, waited = int(words[11]) + int(words[12]), int(words[13]) + int(words[14])
            found[int(name)] = int(words[1]), own, waited
    return found


def job_of(process):
    """The crate of a job and what is done, or None where the process is gone or works on no crate."""
    try:
        with open(f"/proc/{process}/cmdline", encoding="utf-8", errors="replace") as file:
            words = file.read().split("\0")
        folder = os.readlink(f"/proc/{process}/cwd")
    except OSError:
        return None
    if "--crate-name" not in words:
        return None
    crate = words[words.index("--crate-name") + 1]
    if os.path.basename(folder).startswith("rt-edit-"):
        return crate, "edits"
    return crate, "tests" if "--test" in words else "proof"


def family(process, children):
    """A process and all that it started, by each one's children."""
    yield process
    for it in children.get(process, []):
        yield from family(it, children)


class Watch:
    """The ticks of each job so far, by the process that it began with."""

    def __init__(self, gate):
        self.gate, self.jobs, self.ticks = gate, {}, {}

    def look(self):
        found = processes()
        children = {}
        for process, (parent, _, _) in found.items():
            children.setdefault(parent, []).append(process)
        left = list(children.get(self.gate, []))
        while left:
            process = left.pop()
            job = self.jobs.get(process) or job_of(process)
            if not job:
                left += children.get(process, [])
                continue
            self.jobs[process] = job
            ticks = sum(found[it][1] + found[it][2] for it in family(process, children))
            self.ticks[process] = max(ticks, self.ticks.get(process, 0))

    def seconds(self):
        """The seconds of each crate and what was done."""
        sums = {}
        for process, job in self.jobs.items():
            sums[job] = sums.get(job, 0) + self.ticks[process] / TICKS
        return sums


def copy_lines(stream, log):
    for line in stream:
        log.write(line)
        log.flush()
        sys.stdout.write(line)
        sys.stdout.flush()


def processors():
    return len(os.sched_getaffinity(0))


def run(path, *more):
    started = time.monotonic()
    with open(path, "w", encoding="utf-8") as log:
        how = {"stdout": subprocess.PIPE, "stderr": subprocess.STDOUT, "text": True, "errors": "replace"}
        gate = subprocess.Popen(["rt", "ci", *more], cwd=TOP, **how)
        copier = threading.Thread(target=copy_lines, args=(gate.stdout, log))
        copier.start()
        watch = Watch(gate.pid)
        while copier.is_alive():
            watch.look()
            time.sleep(INTERVAL)
        copier.join()
        status = gate.wait()
        times = os.times()
        for (crate, done), seconds in sorted(watch.seconds().items()):
            log.write(f"time: {crate} {done} {seconds:.1f}\n")
        kit = subprocess.run(["rt", "version"], stdout=subprocess.PIPE, text=True, check=False).stdout
        log.write(f"kit: {kit.strip()}\n")
        log.write(f"day: {datetime.date.today()}\n")
        log.write(f"processors: {processors()}\n")
        log.write(f"clock: {time.monotonic() - started:.1f}\n")
        log.write(f"processor: {times.children_user + times.children_system:.1f}\n")
    return status


# The table.


class Crate:
    """What the gate said of a crate, or what the rule says."""

    def __init__(self):
        self.functions = self.tests = self.edits = self.runs = 0
        self.seconds, self.source = {}, "the rule"

    def row(self, name):
        tests = str(self.tests or ("a run" if self.runs else ""))
        took = [f"{self.seconds[it]:.0f}" if it in self.seconds else "" for it in ("proof", "tests", "edits")]
        return name, str(self.functions or ""), took[0], tests, took[1], str(self.edits or ""), took[2], self.source


def crates_of_file():
    """The crates of crates.txt, in order, and those that each lists."""
    with open(os.path.join(TOP, "crates.txt"), encoding="utf-8") as file:
        return {name: uses.split() for name, uses in re.findall(r"(?m)^([a-z0-9_]+)[^:#\n]*:(.*)$", file.read())}


def read_table():
    """The crates of bench/gate.tsv."""
    found = {}
    with open(TABLE, encoding="utf-8") as file:
        rows = [line.rstrip("\n").split("\t") for line in file][1:]
    for name, functions, proof, tests, of_tests, edits, of_edits, source in rows:
        crate = found[name] = Crate()
        crate.functions, crate.edits, crate.source = int(functions or 0), int(edits or 0), source
        crate.tests, crate.runs = int(tests) if tests.isdigit() else 0, int(tests == "a run")
        crate.seconds = {kind: float(it) for kind, it in zip(("proof", "tests", "edits"), (proof, of_tests, of_edits)) if it}
    return found


def files_of(crate, folder, ending):
    for place, _, names in os.walk(os.path.join(TOP, "crates", crate, folder)):
        yield from (os.path.join(place, it) for it in sorted(names) if it.endswith(ending))


def functions_in(crate):
    """How many functions, tests among them, the sources of a crate have."""
    functions = tests = 0
    for path in files_of(crate, "src", ".rt"):
        with open(path, encoding="utf-8") as file:
            text = file.read()
        functions += len(re.findall(r"(?m)^ *(?:pub(?:\(\w+\))? )?(?:const )?(?:extern \"C\" )?fn \w+", text))
        tests += len(re.findall(r"(?m)^ *#\[test\]", text))
    return functions - tests, tests


def estimated(name, crate):
    """A crate with seconds by the rule for what has none; the number of its edits is that of its files."""
    edits = len(list(files_of(name, "must-fail", ".edit")))
    if edits != crate.edits:
        crate.edits = edits
        crate.seconds.pop("edits", None)
    if "proof" not in crate.seconds:
        functions, crate.tests = functions_in(name)
        # In a crate of tests all functions are tests'.
        crate.functions = 0 if crate.tests else functions
        crate.runs = int(os.path.isfile(os.path.join(TOP, "crates", name, "src", "main.rt")))
        crate.seconds["proof"] = A_CRATE + A_FUNCTION * crate.functions + A_PROGRAM * crate.runs
        if crate.tests:
            crate.seconds["tests"] = A_CRATE + A_FUNCTION * functions + A_TEST * crate.tests
    if crate.edits and "edits" not in crate.seconds:
        crate.seconds["edits"] = crate.seconds["proof"] + A_FURTHER_EDIT * (crate.edits - 1)
    return crate


def read_log(path):
    """The crates that a log names, the words that stand behind `WORD:` at its end, and its last line."""
    crates, said, of_tests, crate, last = {}, {}, False, None, ""
    with open(path, encoding="utf-8") as file:
        lines = file.read().splitlines()
    for line in lines:
        if match := re.fullmatch(r"== (\w+)(: its tests)?", line):
            crate, of_tests = crates.setdefault(match[1], Crate()), bool(match[2])
        elif match := re.match(r"logic=proved (?:tests=(\d+) )?functions=(\d+)", line):
            if of_tests:
                crate.tests = int(match[1] or 0)
            elif crate:
                crate.functions = int(match[2])
        elif match := re.match(r"rt: must-fail (\w+)/\S+: refused", line):
            crates.setdefault(match[1], Crate()).edits += 1
        elif match := re.match(r"rt: (\w+) ran[ ,]", line):
            crates.setdefault(match[1], Crate()).runs += 1
        elif match := re.fullmatch(r"time: (\w+) (\w+) ([\d.]+)", line):
            crates.setdefault(match[1], Crate()).seconds[match[2]] = float(match[3])
        elif match := re.match(r"(kit|day|processors|clock|processor): (.*)", line):
            said[match[1]] = match[2]
        elif re.fullmatch(r"\d+ passed, \d+ failed", line):
            last = line
    return crates, said, last


def table_with(log=None):
    """The crates of crates.txt by the table, by a log if there is one, and by the rule."""
    told, measured = read_table() if os.path.isfile(TABLE) else {}, {}
    if log:
        measured, said, last = read_log(log)
        if not last.endswith(" 0 failed"):
            sys.exit(f"{log}: the gate did not pass: {last or 'it has no last line'}")
        for crate in measured.values():
            crate.source = said.get("day", str(datetime.date.today()))
        measured = {name: it for name, it in measured.items() if "proof" in it.seconds}
    return {name: estimated(name, measured.get(name) or told.get(name) or Crate()) for name in crates_of_file()}


def write_table(crates):
    with open(TABLE, "w", encoding="utf-8") as file:
        file.writelines("\t".join(row) + "\n" for row in [HEAD, *(it.row(name) for name, it in crates.items())])


# The clock.


def tasks_of(crates):
    """The tasks of a run: seconds, and the tasks that must be done before."""
    uses, tasks = crates_of_file(), {}
    for name, crate in crates.items():
        tasks[name, "proof"] = crate.seconds["proof"], [(it, "proof") for it in uses[name] if it in crates]
        tasks.update({(name, kind): (crate.seconds[kind], [(name, "proof")]) for kind in ("tests", "edits") if kind in crate.seconds})
    return tasks


def clock(crates, lanes):
    """The seconds of clock of a run on so many processors, the longest chain of tasks first, and those of the longest chain."""
    tasks = tasks_of(crates)
    after = {name: [] for name in tasks}
    for name, (_, before) in tasks.items():
        for it in before:
            after[it].append(name)

    @functools.lru_cache(None)
    def chain(name):
        return tasks[name][0] + max(map(chain, after[name]), default=0)

    waits = {name: len(before) for name, (_, before) in tasks.items()}
    ready = [(-chain(name), name) for name, count in waits.items() if not count]
    heapq.heapify(ready)
    running, now = [], 0.0
    while ready or running:
        while ready and len(running) < lanes:
            _, name = heapq.heappop(ready)
            heapq.heappush(running, (now + tasks[name][0], name))
        now, done = heapq.heappop(running)
        for it in after[done]:
            waits[it] -= 1
            if not waits[it]:
                heapq.heappush(ready, (-chain(it), it))
    return now, max(map(chain, tasks), default=0)


# What the documents say.


def minutes(seconds):
    return f"{seconds / 60:.0f}"


def every_second(crates):
    return sum(sum(it.seconds.values()) for it in crates.values())


def sums(crates):
    kinds = {kind: sum(it.seconds.get(kind, 0) for it in crates.values()) for kind in ("proof", "tests", "edits")}
    on_two, longest = clock(crates, 2)
    on_four, _ = clock(crates, 4)
    yield "| | Number | Minutes of processor time |"
    yield "|---|---:|---:|"
    yield f"| crates, with {sum(it.functions for it in crates.values())} functions | {len(crates)} | {minutes(kinds['proof'])} |"
    yield f"| tests | {sum(it.tests for it in crates.values())} | {minutes(kinds['tests'])} |"
    yield f"| must-fail edits | {sum(it.edits for it in crates.values())} | {minutes(kinds['edits'])} |"
    yield f"| **all** | | **{minutes(every_second(crates))}** |"
    yield ""
    yield (
        f"By a model that does the longest chain of tasks first, a run takes {minutes(on_two)} minutes of clock on two processors and "
        f"{minutes(on_four)} on four; the longest chain takes {minutes(longest)}. "
        f"{sum(it.source == 'the rule' for it in crates.values())} crates have their seconds by the rule, and not by a run."
    )


@functools.lru_cache(None)
def below():
    """The crates that each crate stands on, itself among them."""
    found = {}
    for name, uses in crates_of_file().items():
        found[name] = {name}.union(*(found.get(it, set()) for it in uses))
    return found


def cost(name, crates):
    """How many crates are above one, and the seconds of all of them: of proofs, and of all."""
    changed = [it for it, uses in below().items() if name in uses and it in crates]
    return len(changed) - 1, sum(crates[it].seconds["proof"] for it in changed), sum(sum(crates[it].seconds.values()) for it in changed)


def a_span(values):
    least, most = min(values), max(values)
    return f"{least}" if least == most else f"{least} to {most}"


def costs(crates, names=NAMED, groups=GROUPS):
    yield "| A change in | Crates above | Proofs | With tests and edits |"
    yield "|---|---:|---:|---:|"
    for name in names:
        if name not in crates:
            sys.exit(f"crates.txt has no crate {name}")
        above, proofs, every = cost(name, crates)
        yield f"| `{name}` | {above} | {minutes(proofs)} min | {minutes(every)} min |"
    for group, of in groups.items():
        found = [cost(it, crates) for it in (crates if isinstance(of, tuple) else of) if not isinstance(of, tuple) or it.startswith(of)]
        spans = [a_span([int(minutes(it)) if at else it for it in column]) for at, column in enumerate(zip(*found))]
        yield f"| {group} | {spans[0]} | {spans[1]} min | {spans[2]} min |"


def with_part(path, marks, lines):
    """A page with these lines between two marks, and the page as it is."""
    with open(path, encoding="utf-8") as file:
        text = file.read()
    before, begin, rest = text.partition(f"{marks[0]}\n")
    _, end, after = rest.partition(f"{marks[1]}\n")
    if not begin or not end:
        sys.exit(f"{path} has no lines {marks[0]} and {marks[1]}")
    return before + begin + "\n".join(lines) + "\n" + end + after, text


def pages(crates):
    yield PAGE, *with_part(PAGE, SUMS, sums(crates))
    yield COSTS_PAGE, *with_part(COSTS_PAGE, COSTS, costs(crates))


def over_budget(crates):
    took = every_second(crates)
    return [f"the gate takes {minutes(took)} minutes of processor time, and its budget is {BUDGET}"] if took > 60 * BUDGET else []


def write(log=None):
    crates = table_with(log)
    write_table(crates)
    for path, wanted, _ in pages(crates):
        with open(path, "w", encoding="utf-8") as file:
            file.write(wanted)
    if faults := over_budget(crates):
        sys.exit(faults[0])
    return 0


def change(names):
    print("\n".join(costs(table_with(), names, {})))
    return 0


PATH = re.compile(r"`((?:[\w.-]+/)+[\w.*-]+)`")
# These words of a recipe stand for a construct, a rule or a crate.
ANY = re.compile(r"\b(NAME|CRATE|CONSTRUCT|Construct|RULE)\b")


def lost_paths():
    """The paths in the tables of CONTRIBUTING.md that don't exist. One that names no crate is of the crate named before it in its row."""
    with open(COSTS_PAGE, encoding="utf-8") as file:
        lines = file.read().splitlines()
    for line in (it for it in lines if it.startswith("|")):
        crate = ""
        for path in PATH.findall(line):
            first = path.split("/")[0]
            if ANY.search(path):
                crate = first if os.path.isdir(os.path.join(TOP, "crates", first)) else crate
                continue
            if os.path.isdir(os.path.join(TOP, "crates", first)):
                crate = first
            places = [path, f"crates/{path}", f"crates/{crate}/{path}"]
            if "*" not in path and not any(os.path.exists(os.path.join(TOP, it)) for it in places):
                yield f"CONTRIBUTING.md names {path}, which doesn't exist"


def check():
    crates = table_with()
    faults = over_budget(crates) + list(lost_paths())
    with open(TABLE, encoding="utf-8") as file:
        if [tuple(line.rstrip("\n").split("\t")) for line in file] != [HEAD, *(it.row(name) for name, it in crates.items())]:
            faults.append("bench/gate.tsv lacks a crate or has one too many: run bin/gate.py write")
    faults += [f"{os.path.relpath(path, TOP)} isn't what bench/gate.tsv gives: run bin/gate.py write" for path, wanted, text in pages(crates) if wanted != text]
    print("".join(f"{it}\n" for it in faults), end="", file=sys.stderr)
    return 1 if faults else 0


def main(words):
    if words[:1] == ["run"] and words[2:] in ([], ["--anew"]) and len(words) > 1:
        return run(*words[1:])
    if words[:1] == ["write"] and len(words) < 3:
        return write(*words[1:])
    if words[:1] == ["change"] and len(words) > 1:
        return change(words[1:])
    if words == ["check"]:
        return check()
    sys.exit(__doc__)


if __name__ == "__main__":
    sys.exit(main(sys.argv[1:]))
