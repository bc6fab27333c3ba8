"""Counts the lines of Go's runtime by the counters of its own compiler.

The adapter is built as a test, since `go test` alone lets a program have a runtime with counters. It is compiled from
the source that is installed with Go. A count may miss some runs, as processors that count at once don't wait for each
other.
"""
from __future__ import annotations

import collections
import pathlib
import re
import shlex
import shutil
import subprocess
from collections.abc import Iterator, Mapping, Sequence

from faults.counts import Files, Function, Line
from faults.workshop import ADAPTERS, Failed, run

TEST = pathlib.Path(__file__).resolve().parent / "go_counted_test.go"
# The adapter's files stand in a folder of their own, as a package.
BUILDS = "env GO111MODULE=off GOCACHE={cache} go test -c -covermode=count -coverpkg=runtime -o {go} ."
# A block of a profile: its file, where it begins and ends (lines and columns), and how often it was run.
BLOCK = re.compile(r"(.+):(\d+)\.(\d+),(\d+)\.(\d+) \d+ (\d+)")
HEAD = re.compile(r"func (?:\((?:\w+ )?\*?(\w+)\) )?(\w+)")

Span = tuple[int, int, int, int]


def asked(word: str) -> str:
    """What Go says of itself."""
    done = subprocess.run(["go", "env", word], stdin=subprocess.DEVNULL, capture_output=True, text=True, check=False)
    if done.returncode != 0:
        raise Failed(f"`go env {word}` failed: {done.stderr}")
    return done.stdout.strip()


class GoCounters:
    """Go's runtime, and what the profiles of its adapter's processes say of it."""

    def __init__(self, folder: pathlib.Path) -> None:
        self.room = folder / "go-flags"
        self.tree, self.built, self.package = self.room / "tree", self.room / "built", self.room / "package"

    def build(self) -> None:
        shutil.rmtree(self.tree, ignore_errors=True)
        shutil.copytree(pathlib.Path(asked("GOROOT")) / "src/runtime", self.tree / "runtime")
        shutil.rmtree(self.package, ignore_errors=True)
        self.package.mkdir(parents=True)
        for source in (*ADAPTERS.glob("*.go"), TEST):
            shutil.copy(source, self.package)
        self.built.mkdir(exist_ok=True)
        run(BUILDS.format(cache=shlex.quote(str(self.built / "cache")), go=shlex.quote(str(self.built / "go"))),
            self.package)

    def profiles(self) -> Iterator[pathlib.Path]:
        return self.built.glob("*.profile")

    def forget(self) -> None:
        for path in self.profiles():
            path.unlink()

    def version(self) -> str:
        return asked("GOVERSION").removeprefix("go")

    def read(self, files: Sequence[str]) -> Files:
        blocks: dict[str, collections.Counter[Span]] = {file: collections.Counter() for file in files}
        for path in self.profiles():
            for line in path.read_text().splitlines():
                found = BLOCK.fullmatch(line)
                if found and found[1] in blocks:
                    first, begin, last, end, runs = (int(each) for each in found.groups()[1:])
                    blocks[found[1]][first, begin, last, end] += runs
        return {file: functions_of(self.text(file), counted) for file, counted in blocks.items()}

    def text(self, file: str) -> list[str]:
        """The lines of a file. Columns count bytes, so each byte is a letter."""
        return (self.tree / file).read_text("latin-1").split("\n")


def functions_of(text: Sequence[str], blocks: Mapping[Span, int]) -> dict[str, Function]:
    """The functions in which blocks are, which have no names in a profile."""
    owners = {number: (name, numbers.start) for name, numbers in bodies(text) for number in numbers}
    functions: dict[str, Function] = {}
    for span, runs in sorted(blocks.items()):
        if span[0] in owners:
            name, start = owners[span[0]]
            function = functions.setdefault(name, Function(start, runs))
            for number in code(text, span):
                add_line(function.lines, number, runs)
    return functions


def bodies(text: Sequence[str]) -> Iterator[tuple[str, range]]:
    """The name of each function, and its lines."""
    name, start = "", 0
    for number, line in enumerate(text, 1):
        head = HEAD.match(line)
        if head:
            name, start = ".".join(filter(None, head.groups())), number
        if name and (line.startswith("}") or head and line.endswith("}")):
            yield name, range(start, number + 1)
            name = ""


def code(text: Sequence[str], span: Span) -> Iterator[int]:
    """The lines of a block that have more of it than brackets and comments."""
    first, begin, last, end = span
    for number in range(first, last + 1):
        line = text[number - 1][:end - 1 if number == last else None]
        own = line[begin - 1 if number == first else 0:]
        if own.split("//")[0].strip("{}(); \t"):
            yield number


def add_line(lines: dict[int, Line], number: int, runs: int) -> None:
    """A line may be that of several blocks."""
    line = lines.setdefault(number, Line(runs))
    line.is_part |= (runs == 0) != (line.runs == 0)
    line.runs = max(line.runs, runs)
