"""What scripts asked a collector for, counted from the right replies."""
from __future__ import annotations

from dataclasses import astuple, dataclass
from typing import Optional

from judging.comparing import Judgement
from judging.scripts import CONTROL, Event

# An object, as far as it counts here: what its references lead to that were ever set.
Object = dict[int, Optional["Object"]]


@dataclass(frozen=True)
class Seen:
    commands: int = 0
    refused: int = 0
    starts: int = 0
    quanta: int = 0
    # How often `put` stored the null of an empty slot over a reference to an object.
    nulls: int = 0

    def __add__(self, other: Seen) -> Seen:
        return Seen(*(one + more for one, more in zip(astuple(self), astuple(other))))

    def text(self) -> str:
        return (f"commands of sessions: {self.commands}, of these refused: {self.refused}, `* start`: {self.starts}, "
                f"`* quantum`: {self.quanta}, null stored over an object: {self.nulls}")


class Names:
    """What slots name while a script is done. The board has those of the controls, which have none of their own."""

    def __init__(self) -> None:
        self.named: dict[tuple[str, int], Object | None] = {}

    def perform(self, event: Event) -> bool:
        """Does a command that isn't refused. Says whether it stores null over a reference to an object."""
        who, numbers = event.who, event.numbers
        if event.word == "put":
            fields, value = self.named[who, numbers[0]], self.named.get((who, numbers[2]))
            is_null = value is None and fields.get(numbers[1]) is not None
            fields[numbers[1]] = value
            return is_null
        if event.word == "end":
            self.named = {slot: named for slot, named in self.named.items() if slot[0] != who}
        elif event.word in ("new", "get", "copy", "clear", "take"):
            self.named[who, numbers[0]] = self.loaded(event)
        elif event.word == "post":
            self.named[CONTROL, numbers[0]] = self.named.get((who, numbers[1]))
        return False

    def loaded(self, event: Event) -> Object | None:
        """What a command that sets a slot lets it name."""
        if event.word == "new":
            return {}
        if event.word == "get":
            return self.named[event.who, event.numbers[1]].get(event.numbers[2])
        if event.word == "clear":
            return None
        return self.named.get((CONTROL if event.word == "take" else event.who, event.numbers[1]))


def seen_in(judged: Judgement) -> Seen:
    names, events = Names(), judged.script.events
    refused, nulls = 0, 0
    for event, reply in zip(events, judged.right):
        if not event.is_command:
            continue
        if reply.startswith("refused"):
            refused += 1
        else:
            nulls += names.perform(event)
    words = [event.word for event in events]
    controls = sum(not event.is_command for event in events)
    return Seen(len(events) - controls, refused, words.count("start"), words.count("quantum"), nulls)
