"""Logs of the virtual machine of Java: its safepoints, and the pauses that its collectors log."""
from __future__ import annotations

import re

from pausing.runs import Pause, Reading, Refused, from_pauses, ns, numbered_lines, refused_line

SAFEPOINT = re.compile(r'Safepoint "[^"]*", Time since last: (\d+) ns, ((?:[A-Z][a-z ]*: \d+ ns, )+)Total: (\d+) ns'
                       r"(?:, Threads: \d+ runnable, \d+ total)?")
PART = re.compile(r": (\d+) ns")
# JDK 8 to 12 write a stop so, in seconds.
OLD_SAFEPOINT = "Total time for which application threads were stopped"
DECORATED = re.compile(r"((?:\[[^]]*\])*) ?(.*)")
STAMP = re.compile(r"\[(\d+(?:[.,]\d+)?)(ns|ms|s)\]")
PAUSE = re.compile(r"GC\(\d+\) (?:[A-Za-z]: )?Pause .*")
LENGTH = re.compile(r" (\d+[.,]\d+)ms$")
# Ten years: a stamp that is later is a time of day.
LATEST = 10 * 366 * 86400 * 10**9


def read_safepoints(data: bytes) -> Reading:
    """The machine itself says how long it stopped its threads, and how long they ran before that."""
    reading, unequal = Reading(), 0
    for number, line in numbered_lines(data):
        if OLD_SAFEPOINT in line:
            raise refused_line(number, "JDK 13 and later are read, this is of an older one", line)
        _, mark, rest = line.partition('Safepoint "')
        if not mark:
            continue
        found = SAFEPOINT.fullmatch(mark + rest)
        if not found:
            raise refused_line(number, "no line of a safepoint", line)
        total = int(found[3])
        unequal += total != sum(map(int, PART.findall(found[2])))
        reading.add("mutator", int(found[1]))
        reading.add("collector", total)
    reading.doubt("totals that aren't the sum of their parts", unequal)
    return reading


def stamp_of(decorations: str) -> int | None:
    """The first decoration that is a time since the start of the machine."""
    stamps = (ns(found[1], found[2]) for found in STAMP.finditer(decorations))
    return next((it for it in stamps if it <= LATEST), None)


def read_pauses(data: bytes) -> Reading:
    """A line of a pause is written when it has ended. One without a length says that it begins."""
    pauses: list[Pause] = []
    begun: dict[str, int] = {}
    last = 0
    for number, line in numbered_lines(data):
        decorations, message = DECORATED.fullmatch(line).groups()
        stamp = stamp_of(decorations)
        last = last if stamp is None else max(last, stamp)
        if not PAUSE.fullmatch(message):
            continue
        if stamp is None:
            raise refused_line(number, "no time since the start, as -Xlog:gc:file=LOG:uptimenanos has it", line)
        length = LENGTH.search(message)
        if length is None:
            begun[message] = number
            continue
        begun = {it: where for it, where in begun.items() if not message.startswith(it)}
        pauses.append(Pause(stamp - ns(length[1], "ms"), stamp))
    if begun:
        raise Refused(f"line {min(begun.values())}: a pause begins, and no line says how long it was")
    return from_pauses(0, pauses, last)
