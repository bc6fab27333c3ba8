"""Counts how often each line of a collector is run by scripts that its adapter answers, in all modes of the adapter."""
from __future__ import annotations

import collections
import concurrent.futures
import functools
import pathlib
import shlex
import subprocess
from collections.abc import Iterator

from adapters.known import Mode, command
from faults.counts import Counted, Counters
from faults.judging import STEADY, Bench, adapter_named, in_turn
from faults.places import Plan
from faults.workshop import Failed
from judging.modes import modes_of
from judging.scripts import Mark, Script, read_file, read_script
from judging.sources import conformance_cases

CONFORMANCE = pathlib.Path(__file__).resolve().parent.parent.parent / "conformance"
FILES = "conformance files"
# A collector that counts its lines is slow, and some scripts are long.
MOST_SECONDS = 3600


@functools.lru_cache(1)
def conformance_text() -> tuple[str, int]:
    """All scripts of the folder `conformance` that any collector can answer, one behind the other."""
    cases = [case.plain().script for _, case in conformance_cases(CONFORMANCE) if case.mark is Mark.ANY]
    return "".join(script.text for script in cases), len(cases)


class Counting:
    """The counting of one collector's lines."""

    def __init__(self, plan: Plan, counters: Counters, bench: Bench, jobs: int) -> None:
        self.plan, self.counters, self.bench, self.jobs = plan, counters, bench, jobs
        self.adapter = adapter_named(plan.name)
        self.scripts = bench.scripts_for(self.adapter)

    def asked(self) -> Iterator[tuple[Mode, str]]:
        """What each process of the adapter is asked: the files in all modes, and a generated script in one."""
        modes = self.adapter.modes
        for place, mode in enumerate(modes):
            yield mode, conformance_text()[0]
            for script in in_turn(self.scripts, place, len(modes)):
                plain: Script = read_file(script.path, read_script).plain()
                yield mode, plain.text

    def ask(self, mode: Mode, text: str) -> None:
        built = self.counters.built
        program = command(self.adapter.program, built)
        words = [*self.bench.steady, *modes_of(program, [mode.words.format(built=built)])[0].program]
        try:
            done = subprocess.run(words, input=text.encode(), stdout=subprocess.DEVNULL, stderr=subprocess.PIPE,
                                  env=STEADY, timeout=MOST_SECONDS, check=False)
        except subprocess.TimeoutExpired:
            raise Failed(f"`{shlex.join(words)}` takes over {MOST_SECONDS} s") from None
        if done.returncode != 0:
            raise Failed(f"`{shlex.join(words)}` ended with status {done.returncode}: {done.stderr[-2000:].decode()}")

    def ask_all(self) -> None:
        with concurrent.futures.ThreadPoolExecutor(self.jobs) as pool:
            asked = [pool.submit(self.ask, mode, text) for mode, text in self.asked()]
            for each in concurrent.futures.as_completed(asked):
                each.result()

    def count(self, day: str) -> Counted:
        self.counters.build()
        self.counters.forget()
        self.ask_all()
        scripts = {FILES: conformance_text()[1], **collections.Counter(it.series for it in self.scripts)}
        files = self.counters.read([source.file for source in self.plan.sources])
        return Counted(self.counters.version(), day, len(self.adapter.modes), scripts, files)
