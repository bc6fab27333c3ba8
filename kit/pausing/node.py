"""Logs of Node: the entries of a PerformanceObserver, and what V8 prints by --trace-gc-nvp and --trace-gc."""
from __future__ import annotations

import re
from collections.abc import Iterator
from dataclasses import dataclass

from pausing.runs import Pause, Reading, from_pauses, ns, numbered_lines, refused_line

NUMBER = r"(\d+(?:\.\d+)?(?:e[+-]?\d+)?)"
ENTRY = re.compile(rf"gc {NUMBER} {NUMBER} \w+")
END = re.compile(rf"end {NUMBER}")
# A line of V8 on standard output, among those of the program: the process and its heap, ms since its start, and a text.
TRACED = re.compile(r"\[(\d+:0x[0-9a-f]+)\] +(\d+) ms: (.*)")
# What other options write in such a line.
OTHER = "["
NAMED = re.compile(r"pause=(\d+\.\d+) mutator=(\d+\.\d+) gc=.*")
# Steps of marking, in a line of the collection that they prepared.
NAMED_STEPS = re.compile(r" incremental=(\d+\.\d+) incremental\.finalize=.* incremental_steps_count=(\d+) ")
PLAIN = re.compile(r"[A-Z].*? MB, (?:pooled: [^,]* MB, )?(\d+\.\d+) / \d+\.\d+ ms .*")
PLAIN_STEPS = re.compile(r"\(\+ (\d+\.\d+) ms in (\d+) steps ")
# Two stamps are rounded to a ms, and two lengths to a tenth; a line is written a little later than its pause ends.
SLACK = ns("3", "ms")


def read_entries(data: bytes) -> Reading:
    """Lines `gc START LENGTH KIND`, and then `end TIME`, all in ms since the start of the process."""
    pauses: list[Pause] = []
    end = None
    for number, line in numbered_lines(data):
        found, last = ENTRY.fullmatch(line), END.fullmatch(line)
        if not line or line.startswith("#"):
            continue
        if end is not None or not (found or last):
            raise refused_line(number, "no line `gc START LENGTH KIND`, nor `end TIME` as the last", line)
        if found:
            start = ns(found[1], "ms")
            pauses.append(Pause(start, start + ns(found[2], "ms")))
        else:
            end = ns(last[1], "ms")
    inside = [pause for pause in pauses if end is None or pause.start < end]
    reading = from_pauses(0, inside, end)
    reading.doubt("pauses after the end, left out", len(pauses) - len(inside))
    return reading


def traced(data: bytes, form: re.Pattern[str], option: str) -> Iterator[tuple[int, re.Match[str]]]:
    """The stamps of V8's lines, and what each says of a collection. All have to be of one heap."""
    heap = None
    for number, line in numbered_lines(data):
        found = TRACED.fullmatch(line)
        if not found or found[3].startswith(OTHER):
            continue
        heap = heap or found[1]
        if found[1] != heap:
            raise refused_line(number, f"a heap beside {heap}: a log is that of one", line)
        said = form.match(found[3])
        if not said:
            raise refused_line(number, f"no line of {option}", line)
        yield ns(found[2], "ms"), said


@dataclass
class Steps:
    """The steps of marking, of which a log has counts and sums, and no times."""
    count: int = 0
    took: int = 0

    def add(self, found: re.Match[str] | None) -> None:
        if found:
            self.count += int(found[2])
            self.took += ns(found[1], "ms")

    def doubt(self, reading: Reading) -> None:
        what = f"steps of marking without a time, {self.took} ns in all, that count as the mutator's"
        reading.doubt(what, self.count)


def read_named(data: bytes) -> Reading:
    """`mutator` is the time since the collection before. Now and then it is absurd; then the stamps stand for it."""
    reading, steps = Reading(), Steps()
    before = impossible = 0
    for stamp, said in traced(data, NAMED, "--trace-gc-nvp"):
        pause, mutator = ns(said[1], "ms"), ns(said[2], "ms")
        between = stamp - before - pause
        # The first time may begin later than the stamps do.
        if mutator > between + SLACK or before and mutator < between - SLACK:
            impossible, mutator = impossible + 1, max(0, between)
        reading.add("mutator", mutator)
        reading.add("collector", pause)
        steps.add(NAMED_STEPS.search(said[0]))
        before = stamp
    reading.doubt("times of the mutator that can't be, replaced by the stamps of their lines", impossible)
    steps.doubt(reading)
    return reading


def read_plain(data: bytes) -> Reading:
    """A line is written when its pause has ended."""
    pauses, steps = [], Steps()
    for stamp, said in traced(data, PLAIN, "--trace-gc"):
        pauses.append(Pause(stamp - ns(said[1], "ms"), stamp))
        steps.add(PLAIN_STEPS.search(said[0]))
    reading = from_pauses(0, pauses)
    steps.doubt(reading)
    return reading
