"""Scripts as texts, and the replies to them."""
from __future__ import annotations

import re
from collections.abc import Iterator
from dataclasses import dataclass

from heap import Lost
from machine import Config, Event, Machine
from rules import Rules

U32 = 1 << 32
U64 = 1 << 64
NUMBER = re.compile(rb"0|[1-9][0-9]*")
NAME = re.compile(rb"[a-z][a-z0-9]{0,15}")

# The numbers that each word takes: each is below its limit.
COMMANDS: dict[bytes, tuple[int, ...]] = {
    b"new": (U32, U32, U32), b"get": (U32, U32, U32), b"put": (U32, U32, U32), b"read": (U32, U32),
    b"write": (U32, U32, U64), b"copy": (U32, U32), b"clear": (U32,), b"same": (U32, U32), b"shape": (U32,),
    b"post": (U32, U32), b"take": (U32, U32), b"end": (),
}
CONTROLS: dict[bytes, tuple[int, ...]] = {
    b"start": (), b"quantum": (), b"stat": (), b"dump": (), b"report": (U64,), b"left": (),
}


class BadLine(Exception):
    """A text is outside the grammar: its first bad line."""

    def __init__(self, line: int) -> None:
        super().__init__(f"line {line} is outside the grammar")
        self.line = line


@dataclass(frozen=True)
class Script:
    """A configuration, and events."""
    config: Config
    events: list[Event]


def read(text: bytes) -> Script:
    """The script of a text."""
    *lines, rest = text.split(b"\n")
    config, events = None, []
    for number, line in enumerate(lines, 1):
        if not line or line.startswith(b"#"):
            continue
        words = line.split(b" ")
        if config is None:
            config = _config(words, number)
        else:
            events.append(_event(words, number))
    if rest or config is None:
        raise BadLine(len(lines) + 1)
    return Script(config, events)


def _numbers(words: list[bytes], limits: tuple[int, ...], line: int) -> tuple[int, ...]:
    if len(words) != len(limits) or not all(map(NUMBER.fullmatch, words)):
        raise BadLine(line)
    numbers = tuple(map(int, words))
    if not all(number < limit for number, limit in zip(numbers, limits)):
        raise BadLine(line)
    return numbers


def _config(words: list[bytes], line: int) -> Config:
    if words[0] != b"config":
        raise BadLine(line)
    pages, quantum, trigger, every = _numbers(words[1:], (4097, 1_000_001, 4097, 1_000_001), line)
    if pages == 0 or quantum < 209 or trigger > pages:
        raise BadLine(line)
    return Config(pages, quantum, trigger, every)


def _event(words: list[bytes], line: int) -> Event:
    name, word = words[0], words[1] if len(words) > 1 else b""
    forms = CONTROLS if name == b"*" else COMMANDS
    if name != b"*" and not NAME.fullmatch(name) or word not in forms:
        raise BadLine(line)
    return Event(name.decode(), word.decode(), _numbers(words[2:], forms[word], line))


def replies(script: Script, rules: Rules) -> Iterator[str]:
    """The replies to a script, one by one. A collector by wrong rules may be lost in its heap."""
    machine = Machine(rules, script.config)
    for event in script.events:
        try:
            reply = machine.answer(event)
        except LookupError as fault:
            raise Lost(f"lost at '{event.name} {event.word}': {fault}") from fault
        yield reply
