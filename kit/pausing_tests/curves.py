"""The curve of a log of pauses, and what is promised of it, by the definitions of docs/MANUAL.md: slow, and short.

As a stretch moves on, its units of the mutator go on rising or falling until one of its ends meets an end of a run. So
the least is found at such places alone. Of all stretches of a window or longer, the least share has one of just that
window, or one between two ends of runs.
"""
from __future__ import annotations

import itertools
from bisect import bisect_right
from collections.abc import Iterator, Sequence
from dataclasses import dataclass


@dataclass(frozen=True)
class Promises:
    every: int
    quantum: int
    longest: int
    percent: int
    window: int

    def words(self) -> list[str]:
        return ["--every", str(self.every), "--quantum", str(self.quantum), "--longest", str(self.longest),
                "--keeps", f"{self.percent}:{self.window}"]


def floor(every: int, quantum: int, window: int) -> int:
    """What a window has of the mutator at least, if so many units come before each quantum."""
    both = every + quantum
    return every * (window // both) + max(0, window % both - quantum)


def hundredths(part: int, whole: int) -> str:
    share = 10000 * part // whole
    return f"{share // 100}.{share % 100:02}"


class Curve:
    """A log as its runs, whose ends are at `ends`; before each end the mutator has had so many units."""

    def __init__(self, text: str) -> None:
        lines = (line.split(" ") for line in text.splitlines() if line and not line.startswith("#"))
        whole = ((who, int(units)) for who, units in lines if units != "0")
        self.runs = [(who, sum(units for _, units in run)) for who, run in itertools.groupby(whole, lambda it: it[0])]
        self.ends = [0, *itertools.accumulate(units for _, units in self.runs)]
        self.had = [0, *itertools.accumulate(units if who == "mutator" else 0 for who, units in self.runs)]
        self.total = self.ends[-1]
        self.pauses = [units for who, units in self.runs if who == "collector"]
        self.longest = max(self.pauses, default=0)

    def before(self, place: int) -> int:
        """The units of the mutator before a place."""
        run = bisect_right(self.ends, place) - 1
        is_mutator = run < len(self.runs) and self.runs[run][0] == "mutator"
        return self.had[run] + (place - self.ends[run] if is_mutator else 0)

    def inside(self, start: int, end: int) -> int:
        return self.before(end) - self.before(start)

    def least(self, window: int) -> tuple[int, int]:
        """The fewest units of the mutator in a window, and the first place that has them."""
        starts = {start for end in self.ends for start in (end, end - window) if 0 <= start <= self.total - window}
        return min((self.inside(start, start + window), start) for start in starts | {0})

    def percentile(self, part: int) -> str:
        covering = (units for units in sorted(self.pauses)
                    if 100 * sum(it <= units for it in self.pauses) >= part * len(self.pauses))
        return str(next(covering, "none"))

    def windows(self) -> list[int]:
        found, window = [], max(1, self.longest)
        while window < self.total:
            found.append(window)
            window += max(1, window // 8)
        return [*found, self.total] if self.total else []

    def always(self, points: Sequence[tuple[int, int]]) -> Iterator[tuple[int, int]]:
        """Of each window with its least a share, as two numbers, that no window has less than from it on."""
        for first in range(len(points)):
            shares = [(least, later - (more - least))
                      for (_, least), (later, more) in itertools.pairwise(points[first:])]
            yield min([*shares, points[-1][::-1]], key=lambda share: 10000 * share[0] // share[1])

    def table(self, promises: Promises | None) -> str:
        """What the program prints."""
        mutator = self.had[-1]
        lines = [f"mutator {mutator} collector {self.total - mutator} pauses {len(self.pauses)} "
                 f"greatest {self.longest} median {self.percentile(50)} p90 {self.percentile(90)} "
                 f"p99 {self.percentile(99)}"]
        windows = self.windows()
        places = [self.least(window) for window in windows]
        always = self.always([(window, least) for window, (least, _) in zip(windows, places)])
        for window, (least, place), share in zip(windows, places, always):
            promised = "none" if promises is None else floor(promises.every, promises.quantum, window)
            lines.append(f"window {window} least {least} at {place} share {hundredths(least, window)} "
                         f"always {hundredths(*share)} floor {promised}")
        return "".join(f"{line}\n" for line in lines)

    def broken_floor(self, every: int, quantum: int) -> str | None:
        window = min(every + quantum, self.total)
        (least, place), promised = self.least(window), floor(every, quantum, window)
        return f"the window {window} at {place} has {least}, and {promised} was promised" if least < promised else None

    def broken_pause(self, longest: int) -> str | None:
        run = next((run for run, it in enumerate(self.runs) if it == ("collector", self.longest)), None)
        if run is None or self.longest <= longest:
            return None
        return f"a pause of {self.longest} at {self.ends[run]}, and {longest} was promised"

    def untried(self, promises: Promises) -> list[str]:
        """A sentence for each promise that no log of as many units breaks."""
        short = f"not tried: a trace of {self.total} units has no"
        sentences = ((floor(promises.every, promises.quantum, self.total) == 0, "window with a floor"),
                     (self.total <= promises.longest, f"pause of more than {promises.longest}"),
                     (self.total < promises.window, f"stretch of {promises.window} and more"))
        return [f"{short} {what}" for is_so, what in sentences if is_so]

    def keeps_share(self, percent: int, window: int) -> bool:
        return window > self.total or self.percent_kept(window) >= percent

    def stretches(self, window: int) -> Iterator[tuple[int, int]]:
        """Stretches of a window or longer, among which is one with the least share."""
        if window <= self.total:
            place = self.least(window)[1]
            yield place, place + window
        for last, end in enumerate(self.ends):
            for start in self.ends[:last]:
                if start + window > end:
                    break
                yield start, end

    def percent_kept(self, window: int) -> int:
        """The most whole per cent of the mutator that each stretch of a window or longer has."""
        return min(100 * self.inside(start, end) // (end - start) for start, end in self.stretches(window))
