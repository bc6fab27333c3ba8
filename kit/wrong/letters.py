"""The trace: a letter for each unit of the mutator and of the collector, in order."""
from __future__ import annotations

from bisect import bisect_right
from itertools import accumulate

from rules import Rules

MUTATOR = "M"
COLLECTOR = "C"


class Trace:
    """Segments of equal letters, the number of quanta and the most that one spent."""

    def __init__(self, rules: Rules) -> None:
        self.rules = rules
        self.segments: list[tuple[str, int]] = []
        self.quanta = 0
        self.greatest = 0

    def add(self, letter: str, units: int) -> None:
        if units:
            self.segments.append((letter, units))

    def add_quantum(self, spent: int) -> None:
        self.quanta += spent > 0 or self.rules.idle_quanta_are_counted
        self.greatest = spent if self.rules.greatest_is_last else max(self.greatest, spent)

    def count(self, letter: str) -> int:
        return sum(units for it, units in self.segments if it == letter)

    def least(self, window: int) -> int | None:
        """The fewest letters of the mutator in any stretch of so many letters; none if the trace is shorter.

        Over the starts of stretches their number is linear between those at which the stretch begins or ends with a
        segment. So only these are looked at."""
        ends = [0, *accumulate(units for _, units in self.segments)]
        last = ends[-1] - window
        if last < self.rules.least_wants_more:
            return None
        starts = {0, last, *ends, *(end - window for end in ends)}
        if self.rules.least_at_quanta_alone:
            starts = self._starts_of(COLLECTOR, ends)
        elif self.rules.least_at_commands_alone:
            starts = self._starts_of(MUTATOR, ends)
        before = [0, *accumulate(units if it == MUTATOR else 0 for it, units in self.segments)]
        counts = [self._before(start + window, ends, before) - self._before(start, ends, before)
                  for start in starts if 0 <= start <= last]
        return min(counts, default=0)

    def _starts_of(self, letter: str, ends: list[int]) -> set[int]:
        return {start for start, (it, _) in zip(ends, self.segments) if it == letter}

    def _before(self, position: int, ends: list[int], before: list[int]) -> int:
        """How many letters of the mutator stand before a position."""
        index = bisect_right(ends, position) - 1
        is_mutator = index < len(self.segments) and self.segments[index][0] == MUTATOR
        return before[index] + (position - ends[index] if is_mutator else 0)
