"""Makes several scripts smaller that one process gets, since a finding needs more than one of them."""
from __future__ import annotations

from dataclasses import replace

from judging.comparing import Asked, Judgement
from judging.shrinking import Course, Notice, Shrinker, backward, by_halves
from judging.trials import Spent, Trials


class Series:
    """Makes several scripts smaller that one process gets: first by whole ones, and then each by itself."""

    def __init__(self, trials: Trials, found: Judgement, share: float, notice: Notice) -> None:
        self.trials, self.share, self.notice = trials, share, notice
        self.smallest = found

    @property
    def scripts(self) -> list[Asked]:
        return [*self.smallest.before, self.smallest.asked]

    def count(self) -> int:
        return len(self.scripts)

    def shrink(self) -> Course:
        try:
            self.drop()
            for place in reversed(range(self.count())):
                self.shrink_one(place)
            self.drop()
        except Spent:
            return Course.SPENT
        return Course.WHOLE

    def drop(self) -> None:
        by_halves(self.count, lambda size: backward(size, self.count, self.attempt_without))

    def attempt_without(self, first: int, end: int) -> None:
        scripts, trials = self.scripts[:first] + self.scripts[end:], self.trials
        trials.require(trials.spare)
        judged = scripts and trials.examine_series(scripts, self.share, trials.effort.repeat, trials.spare)
        if judged:
            self.take(judged)

    def take(self, judged: Judgement) -> None:
        self.smallest = judged
        self.notice(judged, self.trials.runs)

    def shrink_one(self, place: int) -> None:
        """Makes one script smaller, and leaves the others as they are."""
        scripts, last = self.scripts, self.smallest
        self.trials.before, self.trials.after = scripts[:place], scripts[place + 1:]
        is_last = place == len(scripts) - 1
        own = scripts[place]
        # What is found of the last is at no event of another.
        at = last.finding if is_last else replace(last.finding, index=len(own.right))

        def notice(judged: Judgement, _: int) -> None:
            self.take(replace(judged, before=last.before) if is_last else
                      replace(last, before=(*last.before[:place], judged.asked, *last.before[place + 1:])))

        shrinker = Shrinker(self.trials, Judgement(own.script, own.right, at), self.share, notice)
        if shrinker.shrink() is Course.SPENT:
            raise Spent
