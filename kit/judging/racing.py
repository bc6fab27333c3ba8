"""Judges a program whose sessions are threads: by the log that it makes of a script, and an order of its commands."""
from __future__ import annotations

import time
from collections.abc import Iterable, Iterator
from dataclasses import dataclass, replace
from typing import Union

from judging.comparing import WELL, Reference, ReferenceFailure, death
from judging.logs import BadLog, Log, read_log, require_commands
from judging.ordering import Found, Stopped, Undecided, find_order
from judging.programs import Answer, Ending, Limits, Patience, Protocol, ask
from judging.scripts import Script
from judging.waiting import LONGER, WHOLE, in_seconds

# What a log takes at most for each command, beside what it always may have.
BYTES_OF_A_COMMAND = 200
SPARE_BYTES = 1 << 20
# So many commands that may come next are told of at most.
MOST_TOLD = 8


@dataclass(frozen=True)
class Legal:
    """The log has an order in which each reply is right. That is judged by `metroheap check --log`."""
    log: Log
    states: int


@dataclass(frozen=True)
class Disordered:
    """It has none."""
    log: Log
    stopped: Stopped

    def text(self) -> Iterator[str]:
        commands, beginning = len(self.log.commands), len(self.stopped.beginning)
        then = "each of these is wrong:" if self.stopped.next else "each other began after one of them had ended"
        yield f"no order of {commands} commands is right; {beginning} can come first, and then {then}"
        for command, right in self.stopped.next[:MOST_TOLD]:
            said = "which leads to no order" if right == command.reply else f"and right is `{right}`"
            yield f"`{command.text}`, {said}"


@dataclass(frozen=True)
class Open:
    """Nothing is known after so many states."""
    log: Log
    states: int


@dataclass(frozen=True)
class Broken:
    """There is no log of the script."""
    why: str

    def text(self) -> Iterator[str]:
        yield self.why


@dataclass(frozen=True)
class Hung:
    """The program didn't end within so many seconds: one of several times, if it was asked again."""
    waited: tuple[float, ...]

    def text(self) -> Iterator[str]:
        yield ", and asked again ".join(f"no end within {in_seconds(seconds)}" for seconds in self.waited)


Verdict = Union[Legal, Disordered, Open, Broken, Hung]


@dataclass(frozen=True)
class Racing:
    """Asks a program for logs, and judges them."""
    reference: Reference
    program: tuple[str, ...]
    seconds: float
    event_seconds: float
    most_states: int

    def ask(self, script: Script, share: float) -> tuple[Answer, Limits]:
        count = len(script.events)
        seconds = share * (self.seconds + self.event_seconds * count)
        limits = Limits(seconds, count + 1, SPARE_BYTES + BYTES_OF_A_COMMAND * count)
        return ask(self.program, Protocol.RUN, script.text, limits, Patience()), limits

    def examine(self, script: Script) -> Verdict:
        """Judges a script. A program that seems to hang is asked once more, and gets longer: it may only be slow."""
        verdict = self.compare(script)
        return self.confirmed(script, verdict) if isinstance(verdict, Hung) else verdict

    def confirmed(self, script: Script, hung: Hung) -> Verdict:
        again = self.compare(script, LONGER)
        return replace(again, waited=hung.waited + again.waited) if isinstance(again, Hung) else again

    def compare(self, script: Script, share: float = WHOLE) -> Verdict:
        """Judges a script by one run, which gets so much of its time."""
        answer, limits = self.ask(script, share)
        if answer.end.ending is Ending.HUNG:
            return Hung((limits.seconds,))
        why = stop_of(answer)
        if why:
            return Broken(why)
        try:
            log = read_log(answer.lines)
            require_commands(log, script)
        except BadLog as bad:
            return Broken(str(bad))
        return self.judge(log)

    def judge(self, log: Log) -> Verdict:
        found = find_order(log, self.most_states)
        if isinstance(found, Stopped):
            return Disordered(log, found)
        if isinstance(found, Undecided):
            return Open(log, found.states)
        self.require_legal(log, found)
        return Legal(log, found.states)

    def require_legal(self, log: Log, found: Found) -> None:
        """The order that was found is legal by the reference too."""
        said = self.reference.output(["check", "--log"], log.text(found.order), Patience())
        if said != [f"legal {len(log.commands)}"]:
            raise ReferenceFailure(f"check --log says `{' '.join(said)}` of an order that was found")


def stop_of(answer: Answer) -> str | None:
    """How a run ended, if it didn't end well."""
    if answer.end.ending is Ending.FLOODED:
        return "more output than a log of the script has"
    if answer.end != WELL:
        return death(answer.end.status)
    return f"`{answer.rest}` without a newline" if answer.rest else None


@dataclass
class Tally:
    """What was judged, and how much of it was a race."""
    logs: int = 0
    commands: int = 0
    overlapping: int = 0
    open: int = 0

    def add(self, verdict: Verdict) -> None:
        self.logs += 1
        if not isinstance(verdict, (Broken, Hung)):
            self.commands += len(verdict.log.commands)
            self.overlapping += verdict.log.overlapping()
        self.open += isinstance(verdict, Open)

    def text(self) -> str:
        return (f"logs: {self.logs}, commands: {self.commands}, neighbours that overlap: {self.overlapping}, "
                f"undecided: {self.open}")


def is_finding(verdict: Verdict) -> bool:
    return isinstance(verdict, (Disordered, Broken, Hung))


class Reduction:
    """Drops events of a script as long as one of some runs of it has a finding of the same kind."""

    def __init__(self, racing: Racing, repeat: int, seconds: float) -> None:
        self.racing, self.repeat = racing, repeat
        self.deadline = time.monotonic() + seconds
        self.runs = 0

    @property
    def is_spent(self) -> bool:
        return time.monotonic() >= self.deadline

    def attempt(self, script: Script, kind: type[Verdict]) -> Verdict | None:
        for _ in range(self.repeat):
            if self.is_spent:
                return None
            self.runs += 1
            verdict = self.racing.compare(script)
            if isinstance(verdict, kind):
                return verdict
        return None

    def pieces(self, script: Script, size: int) -> Iterable[Script]:
        events = script.events
        for first in range(0, len(events), size):
            yield script.with_events(events[:first] + events[first + size:])

    def reduce(self, script: Script, verdict: Verdict) -> tuple[Script, Verdict]:
        """A smaller script, and a verdict on it. One that seemed to hang, and only is slow, isn't taken."""
        smaller, its = self.smaller(script, verdict)
        if isinstance(its, Hung) and smaller != script:
            its = self.racing.confirmed(smaller, its)
        return (smaller, its) if isinstance(its, type(verdict)) else (script, verdict)

    def smaller(self, script: Script, verdict: Verdict) -> tuple[Script, Verdict]:
        size = len(script.events) // 2
        while size and not self.is_spent:
            smaller = ((piece, self.attempt(piece, type(verdict))) for piece in self.pieces(script, size))
            found = next((pair for pair in smaller if pair[1] is not None), None)
            if found:
                script, verdict = found
            size = min(size, len(script.events) // 2) if found else size // 2
        return script, verdict
