"""What the reference answers, what the author's program answers, and the first thing that is wrong with the latter."""
from __future__ import annotations

import enum
import shutil
import signal
import subprocess
import sys
from collections.abc import Sequence
from dataclasses import dataclass, field, replace

from judging.modes import Mode
from judging.programs import WELL, Answer, End, Ending, Errors, Limits, Patience, Protocol, ask
from judging.scripts import CONTROL, HEAP_FULL, BadScript, Case, Event, Script, read_script
from judging.waiting import EVENT_SECONDS, LONGER, SECONDS, WHOLE, in_seconds

# A program may write twice the bytes of the right replies, and so many more.
SPARE_BYTES = 1 << 20
# The reference answers the longest script in less.
REFERENCE_SECONDS = 300


class ReferenceFailure(Exception):
    """The reference program didn't answer as it has to."""


class NoReference(ReferenceFailure):
    """There is no such program, or it can't be run."""


class Kind(enum.Enum):
    DIFFERENCE = "a difference"
    FULL = "a full heap"
    FLOOD = "too much output"
    HANG = "a hang"
    DEATH = "a crash"
    SILENCE = "too few replies"


@dataclass(frozen=True)
class Finding:
    """What is wrong at an event; with the count of events as its index, after the last one."""
    kind: Kind
    index: int
    # The author's reply, or what happened in place of one.
    yours: str
    end: End
    # What the program wrote to standard error.
    errors: Errors = Errors()
    # Whether the program ended well and left events unanswered, so that a reply may be that to another event.
    is_short: bool = False
    # Of a hang, how many seconds each run got that had it.
    waited: tuple[float, ...] = ()

    def is_like(self, other: Finding) -> bool:
        """Whether both may be one fault. A program that can't do with a smaller heap, say, ends in another way."""
        return self.kind is other.kind and self.end in (other.end, WELL)

    def after(self, first: Finding) -> Finding:
        """The same, as what a second run has after a first one."""
        return replace(self, waited=first.waited + self.waited) if self.kind is Kind.HANG else self


@dataclass(frozen=True)
class Asked:
    """A script as it is sent, and the right reply to each of its events."""
    script: Script
    right: tuple[str, ...]


@dataclass(frozen=True)
class Judgement:
    """A script as it was sent, the right reply to each of its events, what was found, and what was answered."""
    script: Script
    right: tuple[str, ...]
    finding: Finding | None
    yours: tuple[str, ...] = ()
    # The scripts that its process got before it, if the finding came only behind them.
    before: tuple[Asked, ...] = ()

    @property
    def asked(self) -> Asked:
        return Asked(self.script, self.right)

    @property
    def events(self) -> int:
        """How many events the process got."""
        return len(self.script.events) + sum(len(it.script.events) for it in self.before)


class Reference:
    """The program whose replies are right."""

    def __init__(self, words: Sequence[str]) -> None:
        self.words = tuple(words)

    def require(self) -> None:
        if not self.words or shutil.which(self.words[0]) is None:
            raise NoReference(f"there is no program {' '.join(self.words[:1])}")

    def output(self, words: Sequence[str], text: str, patience: Patience) -> list[str]:
        """The lines that it writes."""
        patience.require()
        command = [*self.words, *words]
        try:
            done = subprocess.run(command, input=text.encode(), capture_output=True, check=False,
                                  timeout=min(REFERENCE_SECONDS, patience.left))
        except OSError as error:
            raise NoReference(f"{command[0]}: {error.strerror}") from None
        except subprocess.TimeoutExpired:
            patience.require()
            raise ReferenceFailure(f"`{' '.join(command)}` took more than {REFERENCE_SECONDS} s") from None
        if done.returncode != 0:
            said = (done.stderr or done.stdout).decode("utf-8", "backslashreplace").strip()
            raise ReferenceFailure(f"`{' '.join(command)}` ended with status {done.returncode}: {said[-500:]}")
        return done.stdout.decode("utf-8", "backslashreplace").split("\n")[:-1]

    def replies(self, script: Script, patience: Patience) -> tuple[str, ...]:
        # Most replies are one of a few texts, of which each is kept once.
        replies = tuple(map(sys.intern, self.output(["run"], script.text, patience)))
        if len(replies) != len(script.events):
            raise ReferenceFailure(f"{len(script.events)} events had {len(replies)} replies: {replies[:1]}")
        return replies

    def dump_before(self, script: Script, index: int) -> str:
        """The dump just before an event."""
        asked = script.prefix(index)
        return self.replies(asked.with_events([*asked.events, Event(CONTROL, "dump", ())]), Patience())[-1]

    def generated(self, options: Sequence[str]) -> Script:
        try:
            return read_script("".join(line + "\n" for line in self.output(["generate", *options], "", Patience())))
        except BadScript as bad:
            raise ReferenceFailure(f"generate {' '.join(options)}: {bad}") from None


@dataclass(frozen=True)
class Judge:
    """Asks both programs, and compares: all replies, or only those to commands of sessions."""
    reference: Reference
    program: tuple[str, ...]
    protocol: Protocol
    is_exact: bool
    # How long the author's program may take for a script, and how much more for each of its events.
    seconds: float = SECONDS
    event_seconds: float = EVENT_SECONDS
    patience: Patience = field(default_factory=Patience)

    def in_mode(self, mode: Mode) -> Judge:
        return replace(self, program=mode.program)

    def compare(self, asked: Asked, share: float = WHOLE) -> Judgement:
        """Judges a script by a run of the author's program, which gets so much of its time."""
        answer, limits = self.ask([asked], share)
        return Judgement(asked.script, asked.right, self.finding(asked, answer, limits), answer.lines)

    def examine(self, asked: Asked) -> Judgement:
        """Judges a script. A program that seems to hang is asked once more, and gets longer: it may only be slow."""
        judged = self.compare(asked)
        if judged.finding is None or judged.finding.kind is not Kind.HANG:
            return judged
        again = self.compare(asked, LONGER)
        return replace(again, finding=again.finding and again.finding.after(judged.finding))

    def time_for(self, events: int) -> float:
        """How long a script of so many events may take."""
        return self.seconds + self.event_seconds * events

    def share_at_first(self, scripts: Sequence[Asked]) -> float:
        """How much of its time a process gets at first that is asked several scripts: that of one with all events."""
        counts = [len(asked.right) for asked in scripts]
        return self.time_for(sum(counts)) / sum(map(self.time_for, counts))

    def ask(self, scripts: Sequence[Asked], share: float = WHOLE) -> tuple[Answer, Limits]:
        """What the author's program answers to scripts that one process gets, and within which limits."""
        counts = [len(asked.right) for asked in scripts]
        size = 2 * sum(len(reply) + 1 for asked in scripts for reply in asked.right) + SPARE_BYTES
        limits = Limits(share * sum(map(self.time_for, counts)), sum(counts), size)
        text = "".join(asked.script.text for asked in scripts)
        return ask(self.program, self.protocol, text, limits, self.patience), limits

    def prepared(self, case: Case) -> Asked:
        """The script as it is sent, with its right replies.

        If sessions alone are compared, each event has to have one line whatever the collector, so the other controls
        are left out. And where the reference is full the script ends, since a collector may have more room.
        """
        asked = case if self.is_exact else case.plain()
        right = self.reference.replies(asked.script, self.patience)
        if asked.stated:
            require_stated(asked, right)
        if not self.is_exact and HEAP_FULL in right:
            count = right.index(HEAP_FULL)
            return Asked(asked.script.prefix(count), right[:count])
        return Asked(asked.script, right)

    def finding(self, asked: Asked, answer: Answer, limits: Limits) -> Finding | None:
        """What is wrong with the answer to a script."""
        found = self.difference(asked.script, asked.right, answer)
        if len(answer.lines) > len(asked.right):
            # Some event has several lines, and which line is whose is not known.
            return more_lines(answer, found.index if found else len(asked.right))
        return found or stop(asked.right, answer, limits)

    def difference(self, script: Script, right: Sequence[str], answer: Answer) -> Finding | None:
        """The first reply that is not the right one."""
        for index, (event, reply, yours) in enumerate(zip(script.events, right, answer.lines)):
            if yours == reply or not (self.is_exact or event.is_command):
                continue
            is_full = not self.is_exact and event.word == "new" and yours == HEAP_FULL
            is_short = answer.end == WELL and len(answer.lines) < len(right)
            kind = Kind.FULL if is_full else Kind.DIFFERENCE
            return Finding(kind, index, yours, answer.end, answer.errors, is_short)
        return None


def require_stated(case: Case, right: Sequence[str]) -> None:
    """The replies that a script of the folder `conformance` states are those of the reference."""
    for index, (event, stated, reply) in enumerate(zip(case.script.events, case.stated, right), 1):
        if stated != reply:
            raise ReferenceFailure(f"event {index}, `{event.text}`: the script states `{stated}`, "
                                   f"and the reference answers `{reply}`")


def more_lines(answer: Answer, index: int) -> Finding:
    said = f"more lines than events; line {index + 1} is no right one, `{answer.lines[index]}`"
    return Finding(Kind.FLOOD, index, said, answer.end, answer.errors)


def stop(right: Sequence[str], answer: Answer, limits: Limits) -> Finding | None:
    """How a run ended, if it didn't end well."""
    index, waited = min(len(right), len(answer.lines)), ()
    is_complete = index == len(right)
    if answer.end.ending is Ending.FLOODED:
        kind, said = Kind.FLOOD, f"more than {limits.bytes} bytes"
    elif answer.end.ending is Ending.HUNG:
        kind, said = Kind.HANG, f"no {'end' if is_complete else 'reply'} within {in_seconds(limits.seconds)}"
        waited = (limits.seconds,)
    elif answer.end != WELL:
        kind, said = Kind.DEATH, death(answer.end.status)
    elif not is_complete:
        said = f"`{answer.rest}` without a newline" if answer.rest else "no reply"
        kind, said = Kind.SILENCE, f"{said}, and the program ended with status 0"
    elif answer.rest:
        kind, said = Kind.FLOOD, f"after the last reply `{answer.rest}`"
    else:
        return None
    return Finding(kind, index, said, answer.end, answer.errors, waited=waited)


def death(status: int) -> str:
    if status > 0:
        return f"the program ended with status {status}"
    names = {number.value: f" ({number.name})" for number in signal.Signals}
    return f"the program was ended by signal {-status}{names.get(-status, '')}"


