"""Logs of threads: lines `BEGIN END sN COMMAND = REPLY`, in which each session's commands stand in its order."""
from __future__ import annotations

import re
from collections.abc import Iterable, Sequence
from dataclasses import dataclass

from judging.scripts import BadScript, Event, Script, read_event

FIRST_LINE = "log 1"
ORDER_LINE = "order 1"
LINE = re.compile(r"(0|[1-9][0-9]{0,19}) (0|[1-9][0-9]{0,19}) (s[0-8] [a-z]+(?: [0-9]+)*) = (.+)")


class BadLog(Exception):
    """A text is no log, or no log of the script that was asked."""


@dataclass(frozen=True)
class Logged:
    """A command with the times at which it began and ended, in any unit, and its reply."""
    begin: int
    end: int
    event: Event
    reply: str

    @property
    def session(self) -> int:
        return int(self.event.who[1:])

    @property
    def text(self) -> str:
        return f"{self.begin} {self.end} {self.event.text} = {self.reply}"


@dataclass(frozen=True)
class Log:
    """What threads logged: the commands of each session, in its order."""
    commands: tuple[Logged, ...]

    def of_sessions(self) -> dict[int, list[Logged]]:
        found: dict[int, list[Logged]] = {}
        for command in self.commands:
            found.setdefault(command.session, []).append(command)
        return found

    def overlapping(self) -> int:
        """How many pairs of neighbours, by their beginnings, are of two sessions and overlap."""
        ordered = sorted(self.commands, key=lambda it: it.begin)
        pairs = zip(ordered, ordered[1:])
        return sum(one.session != other.session and other.begin <= one.end for one, other in pairs)

    def text(self, order: Sequence[Logged] = ()) -> str:
        """The log, and below it an order of its commands, if there is one: what `metroheap check --log` judges."""
        lines = [FIRST_LINE, *(command.text for command in self.commands)]
        if order:
            lines += [ORDER_LINE, *(command.event.who for command in order)]
        return "".join(f"{line}\n" for line in lines)


def read_logged(line: str) -> Logged:
    found = LINE.fullmatch(line)
    if not found:
        raise BadLog(f"`{line}` is no line `BEGIN END sN COMMAND = REPLY`")
    begin, end = int(found[1]), int(found[2])
    if begin > end:
        raise BadLog(f"`{line}` ends before it begins")
    try:
        event = read_event(found[3])
    except BadScript as bad:
        raise BadLog(str(bad)) from None
    return Logged(begin, end, event, found[4])


def read_log(lines: Iterable[str]) -> Log:
    first, *rest = [*lines] or [""]
    if first != FIRST_LINE:
        raise BadLog(f"the first line is `{first}`, and right is `{FIRST_LINE}`")
    return Log(tuple(read_logged(line) for line in rest))


def require_commands(log: Log, script: Script) -> None:
    """The log has just the commands of the script's sessions, each session's in its order."""
    numbers = {name: number for number, name in enumerate(script.sessions())}
    logged = log.of_sessions()
    for name, number in numbers.items():
        asked = [event for event in script.events if event.who == name]
        found = logged.pop(number, [])
        for event, command in zip(asked, found):
            if (event.word, event.numbers) != (command.event.word, command.event.numbers):
                raise BadLog(f"session {name} was asked `{event.text}`, and logged `{command.text}`")
        if len(asked) != len(found):
            raise BadLog(f"session {name} was asked {len(asked)} commands, and logged {len(found)}")
    if logged:
        raise BadLog(f"it has commands of session s{min(logged)}, which the script hasn't")
