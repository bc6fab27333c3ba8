"""The report of a finding: a script with answers, so that it can be run again, and kept among others of its form."""
from __future__ import annotations

import enum
import pathlib
import shlex
from collections.abc import Iterable, Iterator, Sequence
from dataclasses import dataclass
from itertools import zip_longest

from judging.comparing import Asked, Judge, Judgement, Kind
from judging.manual import Manual, Rule, rules_of
from judging.outcomes import Outcome
from judging.placing import is_sure, likely_place
from judging.programs import Protocol
from judging.ruling import is_apt, is_left
from judging.scripts import RULE, Mark
from judging.shrinking import Course
from judging.shrunk import Shrunk
from judging.waiting import LONGER, in_seconds

# A dump that is shown beside a script is cut behind so many letters.
MOST_LETTERS = 4000
# Of a finding of more lines the terminal gets those above its script alone.
MOST_LINES = 100
HERE = "here"
# What Linux keeps of a process whose addresses aren't random.
ADDR_NO_RANDOMIZE = 0x0040000


class Note(enum.Enum):
    """What a finding doesn't say by itself."""
    FULL = ("your heap is full and the reference's isn't; it may have less room, or keep what nothing reaches any "
            "more: give it more room, or ask for fewer events")
    SHORT = "yours gave fewer lines than there are events, so this may be its reply to a later one"
    FLUSH = "line by line, each reply has to be flushed"
    KEPT_BACK = "replies may have been kept back, so it may have stopped at an event before, or as its input ended"
    UNFINISHED = "shrinking came to its limit (--shrink-runs, --shrink-seconds), so a smaller script may do"
    STOPPED = "the judge was stopped while it shrank this, so a smaller script may do"
    UNDER_WAY = "kept while the judge shrank this, so a smaller script may do"
    SLOW = "smaller scripts were slow, and came to their end: so this one is as it was found"


NOTES = {Course.SPENT: Note.UNFINISHED, Course.STOPPED: Note.STOPPED, Course.UNDER_WAY: Note.UNDER_WAY,
         Course.SLOW: Note.SLOW}
# What a program is run below, to say where it stopped; the first for a hang has to end it.
GDB = "gdb -batch -ex run -ex backtrace --args"
BELOW = {Kind.DEATH: (("gdb", GDB), ("valgrind", "valgrind --trace-children=yes")),
         Kind.HANG: (("gdb", f"timeout -s INT 10 {GDB}"),)}
WAITED_TWICE = "asked twice: the program got {}, and then {}"
WAITED_ONCE = ("this script was asked once, and got {}; that from which it is made was asked twice, and got "
               f"{LONGER:g} times as long the second time")
UNSTEADY = "found in {} of {} runs of this script: the program doesn't answer the same each time"
MOVED = "If that is because its addresses are others, `setarch -R` before the program keeps them the same"
STEADY = "Its addresses are the same, so that may be a clock, a thread or a random number"
BEHIND = ("found only behind {}, in one process, and not alone: something is kept from one script to the next, or "
          "`config` doesn't begin anew. All scripts that it takes are here, and --protocol many asks them again")


def shown(text: str) -> str:
    """A text on one line, with what can't be printed escaped."""
    return "".join(letter if letter.isprintable() else repr(letter)[1:-1] for letter in text)


def shortened(text: str) -> str:
    left = len(text) - MOST_LETTERS
    return text if left <= 0 else f"{text[:MOST_LETTERS]} ... and {left} letters more"


def has_steady_addresses(program: Sequence[str]) -> bool:
    """Whether a program's addresses are the same in each run: by its own words, or as those of the judge are."""
    return any("setarch" in word for word in program) or bool(personality() & ADDR_NO_RANDOMIZE)


def personality() -> int:
    try:
        return int(pathlib.Path("/proc/self/personality").read_text(encoding="ascii"), 16)
    except (OSError, ValueError):
        return 0


def notes_of(shrunk: Shrunk, judge: Judge, behind: Sequence[str]) -> Iterator[str]:
    finding, steadiness, protocol = shrunk.judgement.finding, shrunk.steadiness, judge.protocol
    if finding.kind is Kind.FULL:
        yield Note.FULL.value
    if finding.kind is Kind.HANG:
        yield (WAITED_TWICE if len(finding.waited) > 1 else WAITED_ONCE).format(*map(in_seconds, finding.waited))
    if finding.kind is Kind.HANG and protocol is Protocol.LIVE and finding.index == 0:
        yield Note.FLUSH.value
    if finding.is_short:
        yield Note.SHORT.value
    if behind and shrunk.judgement.before:
        several = f"{len(behind)} scripts, {behind[0]} to {behind[-1]}"
        yield BEHIND.format(several if len(behind) > 1 else behind[0])
    if not steadiness.is_whole:
        why = STEADY if has_steady_addresses(judge.program) else MOVED
        yield f"{UNSTEADY.format(steadiness.found, steadiness.asked)}. {why}"
    if shrunk.course in NOTES:
        yield NOTES[shrunk.course].value


def other_word(right: str, yours: str) -> str | None:
    """Where two long replies differ first."""
    pairs = enumerate(zip_longest(right.split(" "), yours.split(" "), fillvalue="none"), 1)
    number, (one, other) = next((number, pair) for number, pair in pairs if pair[0] != pair[1])
    return f"word {number} is `{other}`, and right is `{one}`" if number > 2 else None


@dataclass(frozen=True)
class Report:
    """A finding with what it takes to tell of it."""
    judge: Judge
    outcome: Outcome
    shrunk: Shrunk
    manual: Manual
    # The reference's dump just before the event, if it is to be said.
    before: str | None = None
    # Where the program stopped, if that is sure.
    place: int | None = None
    # The file in which this is kept, if it is.
    path: pathlib.Path | None = None

    @property
    def judged(self) -> Judgement:
        return self.shrunk.judgement

    @property
    def index(self) -> int:
        return likely_place(self.judged, self.judge.protocol) if self.place is None else self.place

    def summary(self) -> str:
        """What was found, and where."""
        events, before = self.judged.script.events, len(self.judged.before)
        what = self.judged.finding.kind.value + (f" in script {before + 1}," if before else "")
        if self.index == len(events):
            return f"{what} after the last of {len(events)} events"
        return f"{what} at event {self.index + 1} of {len(events)}, `{events[self.index].text}`"

    def rules(self) -> list[Rule]:
        """The rules of the manual on the event and on the two replies."""
        events, finding = self.judged.script.events, self.judged.finding
        event, right = None, ""
        if self.index < len(events):
            event, right = events[self.index], self.judged.right[self.index]
        return rules_of(finding, event, right, self.judge)

    def origin(self) -> str:
        events = len(self.outcome.judged.script.events)
        return f"{self.outcome.source.name}, {events} events, by {self.shrunk.runs} runs"

    def head(self) -> Iterator[str]:
        finding, right = self.judged.finding, self.judged.right
        if finding.kind is not Kind.DIFFERENCE and finding.errors.last:
            yield f"last: {finding.errors.last}"
        if self.shows_rule():
            yield f"{RULE}: {self.outcome.rule}"
        for rule in self.rules():
            yield f"manual: {rule.heading}: {self.manual.quote(rule) or 'see docs/MANUAL.md'}"
        yield f"catches: {self.summary()}"
        yield f"mark: {(Mark.EXACT if self.judge.is_exact else Mark.ANY).value}"
        if self.outcome.source.mode.name:
            yield f"mode: {self.outcome.source.mode.name}"
        yield f"from: {self.origin()}"
        if self.index < len(right):
            is_compared = self.judge.is_exact or self.judged.script.events[self.index].is_command
            yield f"right: {shortened(right[self.index]) if is_compared else 'any line'}"
        yield f"yours: {shortened(finding.yours)}"
        if finding.kind is Kind.DIFFERENCE and (other := other_word(right[self.index], finding.yours)):
            yield f"other: {other}"
        if self.before is not None:
            yield f"before: {shortened(self.before)}"
        yield from (f"note: {note}" for note in notes_of(self.shrunk, self.judge, self.outcome.behind))
        if self.place is None and not is_sure(self.judged, self.judge.protocol):
            yield f"note: {Note.KEPT_BACK.value}"
        yield from self.commands()
        yield from (f"standard error: {line}" for line in finding.errors.head.splitlines())

    def shows_rule(self) -> bool:
        """Whether the rule of the file in which this was found is of this collector, and of what is left."""
        rule, found = self.outcome.rule, self.outcome.judged
        is_moving = self.judge.is_exact or is_apt(rule, (found, self.judged))
        return bool(rule) and is_moving and is_left(found, self.judged)

    def commands(self) -> Iterator[str]:
        """What asks the program again for a shell, below another that says where it stopped."""
        if self.path is None:
            return
        script = f"grep -Ev '^(#|$)' {shlex.quote(str(self.path))}"
        for name, words in BELOW.get(self.judged.finding.kind, ()):
            yield f"{name}: {script} | {words} {shlex.join(self.judge.program)}"

    def comments(self) -> list[str]:
        return [f"# {shown(line)}" for line in self.head()]

    def body(self) -> list[str]:
        lines = [line for asked in self.judged.before for line in answered(asked)]
        lines += ["", self.judged.script.config.text]
        for index, (event, reply) in enumerate(zip(self.judged.script.events, self.judged.right)):
            if index == self.index:
                lines += ["", f"# {HERE}"]
            lines += [event.text, f"# {reply}"]
        if self.index == len(self.judged.right):
            lines += ["", f"# {HERE}: after the last event"]
        return lines

    def text(self) -> str:
        return text_of([*self.comments(), *self.body()])

    def printed(self) -> str:
        """What the terminal gets: all, or of a long finding what stands above its script."""
        head, body = self.comments(), self.body()
        if len(head) + len(body) > MOST_LINES:
            body = ["", f"... and {len(body)} lines with the script and its replies"]
        return text_of([*head, *body])


def answered(asked: Asked) -> list[str]:
    """A script, with the right reply below each event."""
    pairs = zip(asked.script.events, asked.right)
    return ["", asked.script.config.text, *(line for event, reply in pairs for line in (event.text, f"# {reply}"))]


def text_of(lines: Iterable[str]) -> str:
    return "".join(line + "\n" for line in lines)
