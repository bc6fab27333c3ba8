"""What a log is read as: runs of the mutator and of the collector, in ns, and what the log leaves in doubt."""
from __future__ import annotations

from collections.abc import Iterable, Iterator
from dataclasses import dataclass, field
from decimal import Decimal
from typing import NamedTuple

# How many decimal places of a unit are above a ns.
PLACES = {"ns": 0, "us": 3, "ms": 6, "s": 9}


class Refused(Exception):
    """A log isn't of the kind that was asked for."""


class Pause(NamedTuple):
    """When a pause began and ended, in ns."""
    start: int
    end: int


@dataclass
class Reading:
    """The runs of a log in order, and what it leaves in doubt, with counts."""
    runs: list[tuple[str, int]] = field(default_factory=list)
    doubts: list[str] = field(default_factory=list)

    def add(self, who: str, units: int) -> None:
        """Adds a run. One of no unit is none, and one like the run before it lengthens that."""
        if units == 0:
            return
        if self.runs and self.runs[-1][0] == who:
            units += self.runs.pop()[1]
        self.runs.append((who, units))

    def doubt(self, what: str, count: int) -> None:
        """Adds what there are so many of, if there are any."""
        if count:
            self.doubts.append(f"{what}: {count}")

    @property
    def pauses(self) -> int:
        return sum(who == "collector" for who, _ in self.runs)


def ns(number: str, unit: str) -> int:
    """A decimal number of a unit in whole ns."""
    return int(Decimal(number.replace(",", ".")).scaleb(PLACES[unit]).to_integral_value())


def numbered_lines(data: bytes) -> Iterator[tuple[int, str]]:
    """The lines of a text with their numbers. The last one has to be whole."""
    lines = data.decode(errors="replace").split("\n")
    if lines.pop():
        raise Refused(f"line {len(lines) + 1} has no newline: the log was cut")
    for number, line in enumerate(lines, 1):
        yield number, line.removesuffix("\r")


def refused_line(number: int, why: str, line: str) -> Refused:
    return Refused(f"line {number}: {why}: {line[:200]!r}")


def from_pauses(begin: int, pauses: Iterable[Pause], end: int | None = None) -> Reading:
    """The runs from one time to another, or to the end of the last pause. What pauses share counts once."""
    reading, now = Reading(), begin
    early = overlapping = shared = 0
    for start, stop in sorted(pauses):
        if start < begin:
            early, start = early + 1, begin
        if start < now:
            overlapping, shared = overlapping + 1, shared + min(stop, now) - start
        reading.add("mutator", max(0, start - now))
        reading.add("collector", max(0, stop - max(start, now)))
        now = max(now, stop)
    reading.add("mutator", max(0, (now if end is None else end) - now))
    reading.doubt("pauses that begin before the log, cut there", early)
    reading.doubt(f"pauses that begin before another ends, by {shared} ns in all, joined to it", overlapping)
    return reading
