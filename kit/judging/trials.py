"""Runs of the author's program for a finding that is made smaller, as many as are wanted."""
from __future__ import annotations

import time
from collections.abc import Callable, Sequence
from dataclasses import dataclass, replace

from judging.comparing import Asked, Judge, Judgement
from judging.programs import CalledOff, Patience
from judging.scripts import Case, Script
from judging.together import compare_among, compare_series
from judging.waiting import LONGER, WHOLE

# How often a finding that comes and goes is asked for.
MOST_ASKED = 5
TWICE = 2
# So much of the time is spared for one more run of the script that is left.
SPARE_SECONDS = 0.5


class Spent(Exception):
    """The effort has come to its end."""


@dataclass(frozen=True)
class Effort:
    """How many runs of the author's program shrinking takes at most, how long, and how often a script is asked that
    hasn't the finding."""
    runs: int
    seconds: float
    repeat: int = 1


@dataclass(frozen=True)
class Steadiness:
    """In how many runs of one script its finding came. The first of them is that in which it was found."""
    found: int = 1
    asked: int = 1

    @property
    def is_whole(self) -> bool:
        return self.found == self.asked


# Nothing is spared for a last run.
NOTHING_SPARED = Effort(0, 0)


class Trials:
    """Runs of the author's program for one finding: none is begun, and none goes on, beyond the effort. If the finding
    needs other scripts, the process gets them too, before and after the one that is tried."""

    def __init__(self, judge: Judge, found: Judgement, effort: Effort) -> None:
        self.judge, self.goal, self.effort = judge, found.finding, effort
        self.before: Sequence[Asked] = found.before
        self.after: Sequence[Asked] = ()
        self.runs = 0
        self.deadline = time.monotonic() + effort.seconds
        # A last run of the script that is left.
        self.spare = Effort(1, min(SPARE_SECONDS, effort.seconds / 2))

    def require(self, spare: Effort) -> float:
        """The time at which a run has to end, if what is spared is to be left."""
        until = self.deadline - spare.seconds
        if self.runs + spare.runs >= self.effort.runs or time.monotonic() >= until:
            raise Spent
        return until

    def is_goal(self, judged: Judgement) -> bool:
        return judged.finding is not None and judged.finding.is_like(self.goal)

    def repeat(self, compare: Callable[[Judge], Judgement], times: int, spare: Effort) -> Judgement | None:
        """The first judgement of so many runs that has a finding like the first one."""
        judge = replace(self.judge, patience=Patience(self.require(spare)))
        try:
            for _ in range(times):
                self.require(spare)
                self.runs += 1
                judged = compare(judge)
                if self.is_goal(judged):
                    return judged
        except CalledOff:
            raise Spent from None
        return None

    def examine(self, script: Script, share: float, times: int = 1, spare: Effort = NOTHING_SPARED) -> Judgement | None:
        """The judgement of a script by one more run, or up to so many, once it has a finding like the first one."""
        asked: list[Asked] = []

        def compare(judge: Judge) -> Judgement:
            asked.extend([] if asked else [judge.prepared(Case(script))])
            return compare_among(judge, self.before, asked[0], self.after, share)

        return self.repeat(compare, times, spare)

    def examine_series(self, scripts: Sequence[Asked], share: float, times: int = 1,
                       spare: Effort = NOTHING_SPARED) -> Judgement | None:
        """The same of several scripts that one process gets."""
        return self.repeat(lambda judge: compare_series(judge, scripts, share), times, spare)

    def again(self, found: Judgement, least: int = TWICE, most: int = MOST_ASKED) -> tuple[Judgement, Steadiness]:
        """Asks scripts again, so often in all. If they don't have the finding each time, they are asked more often."""
        steadiness = Steadiness()
        try:
            while steadiness.asked < (least if steadiness.is_whole else most):
                judged = self.examine_series([*found.before, found.asked], WHOLE)
                steadiness = Steadiness(steadiness.found + (judged is not None), steadiness.asked + 1)
                found = judged or found
        except Spent:
            pass
        return found, steadiness

    def confirmed(self, smaller: Judgement) -> Judgement | None:
        """A hang of smaller scripts once more, which gets longer, also beyond the effort: it may only be slow."""
        for _ in range(self.effort.repeat):
            self.runs += 1
            judged = compare_series(self.judge, [*smaller.before, smaller.asked], LONGER)
            if self.is_goal(judged):
                return replace(judged, finding=judged.finding.after(smaller.finding))
        return None
