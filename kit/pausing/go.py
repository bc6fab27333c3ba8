"""Logs of Go: what `go tool trace -d` prints of an execution trace, and the lines of GODEBUG=gctrace=1."""
from __future__ import annotations

import re
from collections.abc import Iterator

from pausing.runs import Pause, Reading, from_pauses, ns, numbered_lines, refused_line

EVENT = re.compile(r"(\d+) ([A-Z]\w*) p=-?\d+ g=(\d+) .*")
# What begins and ends: the world stopped, for whichever goroutine; and what a goroutine does for the collector.
STOP = re.compile(r"(?:GC)?(STW)(Start|Done)")
HELP = re.compile(r"GC(MarkAssist|Sweep)(Start|Done)")
MAIN = "1"
CYCLE = re.compile(r"gc (\d+) @(\d+\.\d+)s \d+%: ([\d.]+)\+([\d.]+)\+([\d.]+) ms clock, .*")
IS_CYCLE = re.compile(r"gc \d+ @")


def events(data: bytes) -> Iterator[tuple[int, str, int, re.Match[str]]]:
    """The events with the numbers of their lines, the lines, and their times, which don't fall."""
    last = 0
    for number, line in numbered_lines(data):
        found = EVENT.fullmatch(line)
        if not found:
            raise refused_line(number, "no event as `go tool trace -d` of Go 1.21 or earlier prints it", line)
        time = int(found[1])
        if time < last:
            raise refused_line(number, "an event before the one above it", line)
        yield number, line, time, found
        last = time


def read_trace(data: bytes, has_helps: bool) -> Reading:
    """The pauses of an execution trace; with helps, as the main goroutine has them."""
    pauses: list[Pause] = []
    # Of what has begun once: when, or nothing after its end.
    begun: dict[str, int | None] = {}
    first, last, headless = None, 0, 0
    for number, line, last, event in events(data):
        first = last if first is None else first
        found = STOP.fullmatch(event[2]) or (HELP.fullmatch(event[2]) if has_helps and event[3] == MAIN else None)
        if not found:
            continue
        what, begins = found[1], found[2] == "Start"
        if what in begun and begins == (begun[what] is not None):
            raise refused_line(number, "it begins twice" if begins else "it ends twice", line)
        if not begins:
            headless += what not in begun
            pauses.append(Pause(begun.get(what, first), last))
        begun[what] = last if begins else None
    endless = [Pause(start, last) for start in begun.values() if start is not None]
    reading = from_pauses(first or 0, pauses + endless, last)
    reading.doubt("pauses without a beginning, which begin with the log", headless)
    reading.doubt("pauses without an end, which end with the log", len(endless))
    return reading


def read_stops(data: bytes) -> Reading:
    return read_trace(data, has_helps=False)


def read_goroutine(data: bytes) -> Reading:
    return read_trace(data, has_helps=True)


def read_cycles(data: bytes) -> Reading:
    """A cycle begins with the world stopped. It is stopped again after what runs beside the program."""
    pauses, expected, missing = [], 1, 0
    for number, line in numbered_lines(data):
        if not IS_CYCLE.match(line):
            continue
        found = CYCLE.fullmatch(line)
        if not found:
            raise refused_line(number, "no line of a cycle", line)
        cycle = int(found[1])
        if cycle < expected:
            raise refused_line(number, f"a cycle before {expected}: a log is that of one program", line)
        missing, expected = missing + cycle - expected, cycle + 1
        start = ns(found[2], "s")
        first, beside, second = (ns(found[part], "ms") for part in (3, 4, 5))
        pauses += [Pause(start, start + first), Pause(start + first + beside, start + first + beside + second)]
    reading = from_pauses(0, pauses)
    reading.doubt("cycles missing by their numbers", missing)
    return reading
