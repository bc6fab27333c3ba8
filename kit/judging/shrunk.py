"""What is left of a finding when its script, or those that its process needs, are as small as they get."""
from __future__ import annotations

from dataclasses import dataclass
from typing import Union

from judging.comparing import Judge, Judgement, Kind
from judging.series import Series
from judging.shrinking import Course, Notice, Shrinker
from judging.trials import MOST_ASKED, TWICE, Effort, Steadiness, Trials
from judging.waiting import SHARE_OF_A_HANG, WHOLE


@dataclass(frozen=True)
class Shrunk:
    """The smallest script that was found, and what is known of it."""
    judgement: Judgement
    runs: int
    course: Course
    steadiness: Steadiness = Steadiness()


def shrinker_of(trials: Trials, found: Judgement, share: float, notice: Notice) -> Union[Series, Shrinker]:
    return (Series if found.before else Shrinker)(trials, found, share, notice)


def shrink(judge: Judge, found: Judgement, effort: Effort, notice: Notice) -> Shrunk:
    """Shrinks what is found. Ends with the smallest script so far once the effort is spent, or the judge is stopped."""
    trials = Trials(judge, found, effort)
    if found.finding.kind is Kind.HANG:
        return shrink_hang(trials, found, notice)
    shrinker, course = shrinker_of(trials, found, WHOLE, notice), Course.LEFT_OUT
    try:
        best, steadiness = trials.again(found)
        is_steady = steadiness.is_whole
        # What comes and goes is shrunk only if scripts are asked repeatedly.
        if is_steady or effort.repeat > 1:
            course = shrinker.shrink()
        if shrinker.smallest is not found:
            best, steadiness = trials.again(shrinker.smallest, TWICE if is_steady else MOST_ASKED)
    except KeyboardInterrupt:
        return Shrunk(shrinker.smallest, trials.runs, Course.STOPPED)
    return Shrunk(best, trials.runs, course, steadiness)


def shrink_hang(trials: Trials, found: Judgement, notice: Notice) -> Shrunk:
    """Shrinks a hang with a part of the time first, and with all of it if what is left has none with the longer time.
    If neither helps, what was found stays as it is."""
    twice = Steadiness(TWICE, TWICE)
    shrinker = shrinker_of(trials, found, WHOLE, notice)
    try:
        for share in (SHARE_OF_A_HANG, WHOLE):
            shrinker = shrinker_of(trials, found, share, notice)
            course = shrinker.shrink()
            if shrinker.smallest is found:
                return Shrunk(found, trials.runs, course, twice)
            if confirmed := trials.confirmed(shrinker.smallest):
                return Shrunk(confirmed, trials.runs, course, twice)
    except KeyboardInterrupt:
        return Shrunk(shrinker.smallest, trials.runs, Course.STOPPED)
    return Shrunk(found, trials.runs, Course.SLOW, twice)
