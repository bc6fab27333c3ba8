"""Event logs of the instrumented runtime of OCaml 4.11 to 4.14: a stream of the Common Trace Format."""
from __future__ import annotations

import struct
from collections.abc import Iterator
from dataclasses import dataclass, field

from pausing.runs import Pause, Reading, Refused, from_pauses

MAGIC = 0xC1FC1FC1
HEADER = struct.Struct("<IHH")
# When, in which process, and which kind of event.
EVENT = struct.Struct("<QII")
ENTRY, EXIT, COUNTER, ALLOCATED, FLUSH = range(5)
PHASE = struct.Struct("<H")
TOOK = struct.Struct("<Q")
# How many bytes follow an event of each kind.
SIZES = {ENTRY: 2, EXIT: 2, COUNTER: 10, ALLOCATED: 9, FLUSH: 8}


def events(data: bytes) -> Iterator[tuple[int, int, int, bytes]]:
    """Where each event stands, its time, its kind, and what follows it."""
    if len(data) < HEADER.size or HEADER.unpack_from(data)[0] != MAGIC:
        raise Refused("byte 0: no event log of OCaml 4 on a little-endian machine")
    position = HEADER.size
    while position < len(data):
        body = position + EVENT.size
        time, _, kind = EVENT.unpack_from(data, position) if body <= len(data) else (0, 0, ENTRY)
        if kind not in SIZES:
            raise Refused(f"byte {position}: an event of the unknown kind {kind}")
        after = body + SIZES[kind]
        if after > len(data):
            raise Refused(f"byte {position}: an event without its end: the log was cut")
        yield position, time, kind, data[body:after]
        position = after


@dataclass
class Phases:
    """The phases of the collector: those in which it is, and the outermost ones, which are pauses."""
    inside: list[tuple[int, int]] = field(default_factory=list)
    pauses: list[Pause] = field(default_factory=list)

    def enter(self, time: int, phase: int) -> None:
        self.inside.append((time, phase))

    def leave(self, position: int, time: int, phase: int) -> None:
        start, entered = self.inside.pop() if self.inside else (time, None)
        if phase != entered:
            inside = "no phase" if entered is None else f"phase {entered}"
            raise Refused(f"byte {position}: phase {phase} is left in {inside}")
        if not self.inside:
            self.pauses.append(Pause(start, time))


def read_events(data: bytes) -> Reading:
    phases, last, flushes, took = Phases(), 0, 0, 0
    for position, time, kind, body in events(data):
        if time < last:
            raise Refused(f"byte {position}: an event before the one above it")
        last = time
        if kind == ENTRY:
            phases.enter(time, *PHASE.unpack(body))
        elif kind == EXIT:
            phases.leave(position, time, *PHASE.unpack(body))
        elif kind == FLUSH:
            flushes, took = flushes + 1, took + TOOK.unpack(body)[0]
    if phases.inside:
        raise Refused(f"byte {len(data)}: the log ends in a phase of the collector")
    reading = from_pauses(0, phases.pauses, last)
    reading.doubt(f"writings of the log itself, {took} ns in all, that count as what they interrupted", flushes)
    return reading
