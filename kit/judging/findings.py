"""What was found: it is kept in files from the first moment on, and counted by groups that may be of one fault each."""
from __future__ import annotations

import argparse
import pathlib
import time
from collections.abc import Callable, Iterator
from dataclasses import dataclass

from judging.comparing import Judge, Judgement
from judging.manual import Manual
from judging.outcomes import Outcome
from judging.placing import sure_place
from judging.reporting import Report
from judging.shrinking import Course
from judging.shrunk import Shrunk, shrink
from judging.trials import Effort

MANUAL = pathlib.Path(__file__).resolve().parent.parent.parent / "docs/MANUAL.md"
# How often the smallest script so far is kept.
KEEP_SECONDS = 5


class Found:
    """The first finding of a group, which is kept in a file of its own."""

    def __init__(self, options: argparse.Namespace, judge: Judge, outcome: Outcome, path: pathlib.Path) -> None:
        self.judge, self.outcome, self.path = judge, outcome, path
        self.effort = Effort(options.shrink_runs, options.shrink_seconds, options.repeat)
        self.kept_at = 0.0
        self.place: int | None = None
        self.shrunk = Shrunk(outcome.judged, 0, Course.UNDER_WAY)
        self.keep(self.report())

    def report(self, before: str | None = None) -> Report:
        return Report(self.judge, self.outcome, self.shrunk, Manual(MANUAL), before, self.place, self.path)

    def keep(self, report: Report) -> None:
        self.path.write_text(report.text(), encoding="utf-8")
        self.kept_at = time.monotonic()

    def shrink(self, say: Callable[[str], None]) -> Report:
        """Makes the script, and those that its process needs before it, as small as they get, and keeps them."""
        def notice(judged: Judgement, runs: int) -> None:
            say(f"{judged.events} events left after {runs} runs")
            if time.monotonic() - self.kept_at >= KEEP_SECONDS:
                self.shrunk = Shrunk(judged, runs, Course.UNDER_WAY)
                self.keep(self.report())

        self.shrunk = shrink(self.judge, self.outcome.judged, self.effort, notice)
        self.keep(self.report())
        if self.shrunk.course is not Course.STOPPED:
            self.place = sure_place(self.judge, self.shrunk.judgement)
        report = self.report()
        self.keep(report)
        if self.judge.is_exact:
            report = self.report(self.judge.reference.dump_before(self.shrunk.judgement.script, report.index))
            self.keep(report)
        return report


@dataclass
class Group:
    """Findings that may be of one fault: what they have in common, how many scripts have one, and the first of them, if
    it is one that is kept."""
    name: str
    scripts: int
    found: Found | None

    def text(self) -> str:
        place = f"kept in {self.found.path}" if self.found else "not kept"
        return f"scripts with a finding: {self.scripts}, {place}, {self.name}"


def name_of(outcome: Outcome, judge: Judge) -> str:
    """What a finding has in common with others: the rule of its script, or else its kind and what was asked."""
    if outcome.rule:
        return f"rule: {outcome.rule}"
    judged = outcome.judged
    finding, events = judged.finding, judged.script.events
    word = f" at `{events[finding.index].word}`" if finding.index < len(events) else " after the last event"
    rules = unshrunk(outcome, judge).rules()
    return f"{finding.kind.value}{word}" + (f", {rules[0].heading}: {rules[0].words}" if rules else "")


def unshrunk(outcome: Outcome, judge: Judge) -> Report:
    """The report of a finding as it is."""
    return Report(judge, outcome, Shrunk(outcome.judged, 0, Course.UNTRIED), Manual(MANUAL))


class Findings:
    """What was found so far. The first finding of each group is kept, of so many groups."""

    def __init__(self, options: argparse.Namespace, judge: Judge) -> None:
        self.options, self.judge = options, judge
        self.most = options.findings or 1
        self.groups: dict[str, Group] = {}

    @property
    def is_enough(self) -> bool:
        return len(self.groups) >= self.most

    def path(self, number: int) -> pathlib.Path:
        path = pathlib.Path(self.options.keep)
        return path if number == 1 else path.with_name(f"{path.stem}-{number}{path.suffix}")

    def add(self, outcome: Outcome) -> Found | None:
        """Counts a finding. Gives it if it is the first of a group, and to be kept."""
        name = name_of(outcome, self.judge)
        if name in self.groups:
            self.groups[name].scripts += 1
            return None
        found = None
        if not self.is_enough:
            judge = self.judge.in_mode(outcome.source.mode)
            found = Found(self.options, judge, outcome, self.path(len(self.groups) + 1))
        self.groups[name] = Group(name, 1, found)
        return found

    def kept(self) -> list[str]:
        return [str(group.found.path) for group in self.groups.values() if group.found]

    def lines(self) -> Iterator[str]:
        yield f"groups of findings: {len(self.groups)}"
        yield from (group.text() for group in self.groups.values())
