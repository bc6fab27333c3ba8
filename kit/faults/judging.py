"""Judges what was built of a collector, in all modes of its adapter."""
from __future__ import annotations

import os
import pathlib
import resource
import shlex
import shutil
import subprocess
import sys
import time
from collections.abc import Sequence
from dataclasses import dataclass, field
from xml.etree import ElementTree

from adapters.known import ALL, Adapter, Mode, command
from faults.planted import Collector, Fault
from faults.workshop import Failed
from judging.waiting import DEAR_EVENT_SECONDS, DEAR_SECONDS, EVENT_SECONDS, PLANTED, SECONDS

KIT = pathlib.Path(__file__).resolve().parent.parent
SHRINK_SECONDS = "15"
# What the judge notes of a finding.
UNSTEADY = "answer the same each time"
BEHIND = "in one process, and not alone"
# A program that damaged its memory may ask for all there is.
MOST_BYTES = 4 << 30
# Profiles, the seeds of each and how many events a script has. Where a collection takes long, scripts are shorter.
TURNS = ("churn", "lists", "trees", "wide", "large", "frag", "refusals", "mixed")
IN_TURN = "in turn"
SERIES = {IN_TURN: (20, 10000), "barriers": (20, 10000), "fans": (4, 43000)}
DEAR_SERIES = {IN_TURN: (20, 2000), "barriers": (20, 2000), "fans": (1, 43000)}
# No collector of the adapters is full before that.
PAGES = "4096"
# The allocator of glibc writes a random word into what it keeps of a thread's freed blocks: runs would differ.
NO_CACHE = ("GLIBC_TUNABLES", "glibc.malloc.tcache_count=0")
STEADY = {**os.environ, NO_CACHE[0]: NO_CACHE[1]}


@dataclass(frozen=True)
class Script:
    """A generated script, and the place of its mode."""
    path: pathlib.Path
    series: str
    place: int


@dataclass
class Row:
    """What is found of a collector: by conformance files in which modes, by how many generated scripts of each series,
    and how many events the smallest has when it is shrunk, with those of scripts that it needs before it."""
    modes: list[str] = field(default_factory=list)
    generated: dict[str, tuple[int, int]] = field(default_factory=dict)
    events: int = 0
    is_unsteady: bool = False
    # Whether the smallest needs other scripts before it in its process.
    is_behind: bool = False
    seconds: float = 0.0

    @property
    def by_generated(self) -> int:
        return sum(found for found, _ in self.generated.values())

    @property
    def is_found(self) -> bool:
        return bool(self.modes) or self.by_generated > 0


def steady_words() -> list[str]:
    """What a program is run by, so that its addresses are the same in each run, where that can be had."""
    return ["setarch", "-R"] if shutil.which("setarch") else []


def compiled(folder: pathlib.Path) -> list[str]:
    """Python by which the judge, and what it imports, is compiled once in a folder, and not at each run."""
    python = [sys.executable, "-X", f"pycache_prefix={folder}/compiled"]
    subprocess.run(["env", "-u", "PYTHONDONTWRITEBYTECODE", *python, "-c", "import judging.telling, judging.threads"],
                   cwd=KIT, check=False)
    return python


def times_for(adapter: Adapter) -> list[str]:
    """How long a program may take in which a fault may be."""
    whole = (DEAR_SECONDS, DEAR_EVENT_SECONDS) if adapter.is_dear else (SECONDS, EVENT_SECONDS)
    seconds, event_seconds = (f"{PLANTED * each:f}" for each in whole)
    return ["--seconds", seconds, "--event-seconds", event_seconds]


def limit_resources() -> None:
    resource.setrlimit(resource.RLIMIT_AS, (MOST_BYTES, MOST_BYTES))
    resource.setrlimit(resource.RLIMIT_CORE, (0, 0))


def events_in(report: str) -> int:
    return sum(not line.startswith(("#", "config ")) for line in report.splitlines() if line)


def adapter_named(name: str) -> Adapter:
    return next(each for each in ALL if each.name == name)


def adapter_of(collector: Collector) -> Adapter:
    return adapter_named(collector.name)


def in_turn(scripts: Sequence[Script], place: int, modes: int) -> list[Script]:
    """The scripts that a mode is asked, of so many."""
    return [script for script in scripts if script.place % modes == place]


def failures(listing: str) -> list[str]:
    """The scripts of a listing in which something was found."""
    cases = ElementTree.parse(listing).iter("testcase")
    return [case.attrib["name"].rsplit(", mode ", 1)[0] for case in cases if case.find("failure") is not None]


class Bench:
    """Where collectors are judged."""

    def __init__(self, folder: pathlib.Path, reference: Sequence[str], jobs: int) -> None:
        self.folder, self.reference = folder, reference
        self.judge_words = [*compiled(folder), str(KIT / "judge"), "--protocol", "many", "--jobs", str(jobs),
                            "--reference", shlex.join(reference)]
        self.steady = steady_words()

    def scripts_for(self, adapter: Adapter) -> list[Script]:
        """All generated scripts that an adapter is asked in one mode or another."""
        series = DEAR_SERIES if adapter.is_dear else SERIES
        return [script for name, sizes in series.items() for script in self.generate(name, *sizes)]

    def generated(self, profile: str, seed: int, events: int) -> bytes:
        words = [*self.reference, "generate", "--profile", profile, "--seed", str(seed), "--events", str(events),
                 "--pages", PAGES]
        made = subprocess.run(words, stdin=subprocess.DEVNULL, capture_output=True, check=False)
        if made.returncode != 0:
            raise Failed(f"`{shlex.join(words)}` ended with status {made.returncode}: {made.stderr.decode()}")
        return made.stdout

    def generate(self, series: str, seeds: int, events: int) -> list[Script]:
        """The scripts of a series, each made once. Modes take turns, and so that each comes to each profile."""
        (self.folder / "scripts").mkdir(parents=True, exist_ok=True)
        scripts = []
        for seed in range(1, seeds + 1):
            turn, place = divmod(seed - 1, len(TURNS))
            profile = TURNS[place] if series == IN_TURN else series
            path = self.folder / f"scripts/{profile}-{seed}-{events}.script"
            if not path.exists():
                path.write_bytes(self.generated(profile, seed, events))
            scripts.append(Script(path, series, turn + place))
        return scripts

    def ask(self, collector: Collector, mode: Mode, words: Sequence[str]) -> subprocess.CompletedProcess[str]:
        """The judge's report of a mode. A finding is its status 1."""
        built, adapter = self.folder / collector.name / "built", adapter_of(collector)
        judge = [*self.judge_words, *times_for(adapter), *words, "--mode", mode.words.format(built=built)]
        judged = subprocess.run([*judge, "--", *self.steady, *command(adapter.program, built)], text=True,
                                stdin=subprocess.DEVNULL, capture_output=True, errors="replace", env=STEADY,
                                preexec_fn=limit_resources, check=False)
        if judged.returncode not in (0, 1):
            raise Failed(f"{collector.name}, {mode.name}: {judged.stderr}")
        return judged

    def judge(self, collector: Collector, fault: Fault | None) -> Row:
        began = time.monotonic()
        findings = self.folder / collector.name / "findings"
        findings.mkdir(parents=True, exist_ok=True)
        judging = Judging(self, collector, str(findings / (fault.name if fault else "as-it-is")))
        for place, mode in enumerate(judging.adapter.modes):
            judging.judge_files(mode)
            judging.judge_scripts(mode, place)
        judging.shrink()
        judging.row.seconds = time.monotonic() - began
        return judging.row


class Judging:
    """The judging of one build. Findings are kept in files whose names begin with `kept`."""

    def __init__(self, bench: Bench, collector: Collector, kept: str) -> None:
        self.bench, self.collector, self.kept, self.row = bench, collector, kept, Row()
        self.adapter = adapter_of(collector)
        self.scripts = bench.scripts_for(self.adapter)
        # Findings that a script has alone, and others: how many events it has, its file, and the mode.
        self.alone: list[tuple[int, str, Mode]] = []
        self.behind: list[tuple[int, str, Mode]] = []

    def find(self, mode: Mode, words: Sequence[str], what: str) -> bool:
        keep = f"{self.kept}-{what}-{mode.name.replace(', ', '-').replace(' ', '-')}.script"
        pathlib.Path(keep).unlink(missing_ok=True)
        judged = self.bench.ask(self.collector, mode, [*words, "--shrink-runs", "1", "--keep", keep])
        if judged.returncode == 0:
            return False
        report = pathlib.Path(keep).read_text(errors="replace")
        self.row.is_unsteady |= UNSTEADY in report
        (self.behind if BEHIND in report else self.alone).append((events_in(report), keep, mode))
        return True

    def judge_files(self, mode: Mode) -> None:
        if self.find(mode, ["--seeds", "none"], "file"):
            self.row.modes.append(mode.name)

    def judge_scripts(self, mode: Mode, place: int) -> None:
        """Judges a mode by the scripts whose turn it is."""
        listing = f"{self.kept}-generated.xml"
        asked = in_turn(self.scripts, place, len(self.adapter.modes))
        words = [word for script in asked for word in ("--script", str(script.path))]
        found = self.find(mode, ["--conformance", "none", "--junit", listing, *words], "generated")
        failed = failures(listing) if found else []
        for script in asked:
            before = self.row.generated.get(script.series, (0, 0))
            self.row.generated[script.series] = before[0] + failed.count(str(script.path)), before[1] + 1

    def shrink(self) -> None:
        """How many events the smallest finding has when it is shrunk."""
        found = self.alone or self.behind
        if not found:
            return
        _, script, mode = min(found, key=lambda finding: finding[0])
        keep = f"{self.kept}-shrunk.script"
        judged = self.bench.ask(self.collector, mode, ["--conformance", "none", "--script", script, "--shrink-seconds",
                                                     SHRINK_SECONDS, "--keep", keep])
        if judged.returncode == 1:
            script = keep
        else:
            self.row.is_unsteady = True
        report = pathlib.Path(script).read_text(errors="replace")
        self.row.events, self.row.is_behind = events_in(report), BEHIND in report
