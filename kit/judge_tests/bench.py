"""What the tests of the judge share: scripts, a folder for them, and how the judge is run."""
from __future__ import annotations

import os
import pathlib
import random
import shlex
import subprocess
import sys
import unittest
from collections.abc import Sequence
from dataclasses import dataclass
from typing import TypeVar

from judging.comparing import Kind
from judging.scripts import read_case

KIT = pathlib.Path(__file__).resolve().parent.parent
TOP = KIT.parent
JUDGE = KIT / "judge"
TOYS = KIT / "toys"
ADAPTERS = KIT / "adapters"
KEPT = "judge-finding.script"
# Without what an installation adds, which can take longer than a run.
PYTHON = [sys.executable, "-S"]
MOST_EVENTS = 12
Choice = TypeVar("Choice")


class Noise:
    """Scripts of all commands and controls, the same from the same seed. They have few slots, so that much meets."""

    def __init__(self, seed: int) -> None:
        self.random = random.Random(seed)

    def pick(self, choices: Sequence[Choice]) -> Choice:
        return choices[int(self.random.random() * len(choices))]

    def session(self) -> str:
        return self.pick("aaaaabbb" if self.random.random() < 0.9 else "cdefghij")

    def slot(self) -> int:
        return self.pick([0, 1, 2, 3] if self.random.random() < 0.95 else [15, 16])

    def shape(self) -> str:
        is_small = self.random.random() < 0.9
        return self.pick(["0 1", "1 0", "1 1", "2 1", "1 2", "3 2", "2 58"] if is_small else ["70 20", "216000 1"])

    def field(self) -> int:
        return self.pick([0, 0, 0, 0, 0, 1, 1, 2, 60])

    def value(self) -> int:
        return self.pick([1, 7, 4294967295, 4294967296, 18446744073709551615])

    def command(self) -> str:
        word = self.pick(["new", "put", "get", "same"] * 4 + ["read", "write", "copy", "take"] * 2
                         + ["clear", "shape", "post"])
        match word:
            case "new":
                return f"new {self.slot()} {self.shape()}"
            case "get":
                return f"get {self.slot()} {self.slot()} {self.field()}"
            case "put":
                return f"put {self.slot()} {self.field()} {self.slot()}"
            case "read":
                return f"read {self.slot()} {self.field()}"
            case "write":
                return f"write {self.slot()} {self.field()} {self.value()}"
            case "clear" | "shape":
                return f"{word} {self.slot()}"
            case _:
                return f"{word} {self.slot()} {self.slot()}"

    def line(self) -> str:
        chance = self.random.random()
        if chance < 0.01:
            return f"{self.pick('cdefghij')} end"
        if chance < 0.06:
            return "* quantum"
        if chance < 0.12:
            return self.pick(["* start", "* start", "* stat", "* dump", "* dump", "* left", "* report 300"])
        return f"{self.session()} {self.command()}"

    def script(self, config: str, events: int) -> str:
        return "".join(f"{line}\n" for line in (config, *(self.line() for _ in range(events))))


@dataclass(frozen=True)
class Bench:
    """What all tests share: the program, and a folder with scripts in it."""
    program: str
    folder: pathlib.Path

    @property
    def python(self) -> list[str]:
        """Python with a cache of its own, so that not each run of the judge compiles it anew."""
        return [*PYTHON, "-X", f"pycache_prefix={self.folder / 'cache'}"]

    def fill(self) -> None:
        environment = {**os.environ, "PYTHONDONTWRITEBYTECODE": ""}
        subprocess.run([*self.python, "-c", "import judging.telling"], cwd=KIT, env=environment, check=True)
        for number, seed in enumerate((3, 9), 1):
            self.write(f"plain{number}.script", Noise(seed).script("config 64 1000 0 0", 1500))
        self.write("short.script", Noise(1).script("config 8 1000 0 0", 150))
        self.write("exact.script", Noise(2).script("config 24 250 24 0", 500))
        self.write("large.script", Noise(4).script("config 4096 1000 0 0", 60) + "a new 0 216000 1\na shape 0\n")
        self.write("long.script", Noise(5).script("config 4096 1000 0 0", 20000))

    def write(self, name: str, text: str) -> pathlib.Path:
        path = self.folder / name
        path.write_text(text, encoding="utf-8")
        return path

    def reference(self, subcommand: str, text: str) -> str:
        words = [*shlex.split(self.program), subcommand]
        return subprocess.run(words, input=text, capture_output=True, text=True, check=True).stdout

    def toy(self, name: str, old: str = "", new: str = "") -> list[str]:
        """The words that run the toy in C, with a text of its source exchanged."""
        source = (TOYS / "semispace.c").read_text(encoding="utf-8")
        return self.built(name, self.write(f"{name}.c", source.replace(old, new) if old else source))

    def built(self, name: str, *sources: pathlib.Path) -> list[str]:
        """The words that run what is compiled of these sources in C."""
        compiler = shlex.split(os.environ.get("CC", "cc"))
        subprocess.run([*compiler, "-std=c99", f"-I{ADAPTERS}", "-o", self.folder / name, *sources], check=True)
        return [str(self.folder / name)]


class JudgeCase(unittest.TestCase):
    bench: Bench

    def command(self, *words: str) -> list[str]:
        return [*self.bench.python, str(JUDGE), "--reference", self.bench.program, *words]

    def judge(self, *words: str) -> subprocess.CompletedProcess:
        """Runs the judge in the folder of the tests."""
        return subprocess.run(self.command(*words), cwd=self.bench.folder, stdin=subprocess.DEVNULL,
                              capture_output=True, text=True, check=False)

    def kept(self) -> str:
        return (self.bench.folder / KEPT).read_text(encoding="utf-8")

    def own(self, subcommand: str) -> list[str]:
        """The words that run the program itself."""
        return [*shlex.split(self.bench.program), subcommand]

    def finds_nothing(self, *words: str) -> str:
        done = self.judge(*words)
        self.assertEqual((done.returncode, done.stderr), (0, ""), done.stdout + done.stderr)
        self.assertRegex(done.stdout, r"\Ajudge: nothing was found; scripts: [1-9]\d*, events: [1-9]\d*, .*\n"
                                      r"judge: commands of sessions: \d+, of these refused: \d+, .*\n"
                                      r"(judge: .*\n)*\Z")
        return done.stdout

    def finds(self, kind: Kind, *words: str) -> str:
        """The report of a finding: a script of few events, with the replies of the reference."""
        done = self.judge(*words)
        self.assertEqual((done.returncode, done.stderr), (1, ""), done.stdout + done.stderr)
        text = self.kept()
        self.assertIn(text, done.stdout)
        self.assertIn(f"\n# catches: {kind.value} ", "\n" + text)
        case = read_case(text)
        self.assertLessEqual(len(case.script.events), MOST_EVENTS, text)
        self.assertEqual("".join(f"{reply}\n" for reply in case.stated), self.bench.reference("run", text))
        return text
