"""The programs `markdown`, `markdown-fmt` and `markdown-lint`, as `rt ci` left them in crates/."""
import shutil
import subprocess
import tempfile
from pathlib import Path

from options import TOP

CRATES = {"markdown": "markdown_program", "markdown-fmt": "markdown_fmt", "markdown-lint": "markdown_lint"}
# What ends the name of a program of Rattle's own compiler.
BY_RATTLE = ".by-rattle"


class Programs:
    """The programs of one compiler, and a folder for the files that they read."""

    def __init__(self, ending="", folder=None):
        self.scratch = Path(tempfile.mkdtemp(prefix="rows-"))
        self.places = {name: (folder or TOP / "crates" / crate / "out").resolve() / (crate + ending) for name, crate in CRATES.items()}

    def __enter__(self):
        return self

    def __exit__(self, *_):
        shutil.rmtree(self.scratch)

    def missing(self):
        return [str(it) for it in self.places.values() if not it.is_file()]

    def run(self, program, words, data=b"", folder=None, **how):
        return subprocess.run([self.places[program], *words], input=data, capture_output=True, cwd=folder or self.scratch, check=False, **how)

    def changed(self, texts, program, words, most=2000):
        """What a program makes of texts, each a file that it changes in place, at most so many a run; and what it prints."""
        texts, said, after = list(texts), "", []
        for start in range(0, len(texts), most):
            files = [self.scratch / f"{number}.md" for number in range(start, min(start + most, len(texts)))]
            for file, text in zip(files, texts[start:]):
                file.write_bytes(text.encode())
            done = self.run(program, [*words, *(it.name for it in files)])
            if done.returncode > 1 or done.stderr:
                raise ValueError(f"{program}: {done.stderr[:300]}")
            said += done.stdout.decode()
            for file in files:
                after.append(file.read_bytes().decode())
                file.unlink()
        return after, said
