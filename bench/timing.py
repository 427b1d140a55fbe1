"""Processor time and memory of programs, measured in turn."""
import os
import subprocess
import sys

# cmark-gfm with all that it has
GFM = ["cmark-gfm"]
for extension in ("footnotes", "table", "strikethrough", "autolink", "tagfilter", "tasklist"):
    GFM += ["-e", extension]


def seconds(command, path):
    """The processor time of a run."""
    with open(path, "rb") as text, open(os.devnull, "wb") as out:
        child = subprocess.Popen(command, stdin=text, stdout=out)
        _, status, used = os.wait4(child.pid, 0)
    child.returncode = status
    if status != 0:
        sys.exit("%s: status %d" % (command, status))
    return used.ru_utime + used.ru_stime


def memory(command, path):
    """The peak memory of a run in bytes. GNU time starts it, since a child's peak begins with what its parent has."""
    with open(path, "rb") as text:
        ran = subprocess.run(["/usr/bin/time", "-f", "%M", *command], stdin=text, stdout=subprocess.DEVNULL, stderr=subprocess.PIPE)
    return int(ran.stderr.split()[-1]) * 1024


def least(commands, path, rounds):
    """The least processor time of each command, by its name. They run in turn, round for round."""
    best = {name: float("inf") for name in commands}
    for _ in range(rounds):
        for name, command in commands.items():
            best[name] = min(best[name], seconds(command, path))
    return best
