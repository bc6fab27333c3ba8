"""Scripts as the judge cuts, renames and sends them, and the scripts with answers of the folder `conformance`."""
from __future__ import annotations

import enum
import functools
import hashlib
import pathlib
import re
from collections.abc import Callable, Iterable
from dataclasses import dataclass, replace
from typing import TypeVar

Read = TypeVar("Read")
CONTROL = "*"
HEAP_FULL = "refused 5 heap full"
CONTROLS = ("start", "quantum", "stat", "dump", "left", "report")
# The controls that a collector is asked without --exact. It may answer any line.
PLAIN_CONTROLS = ("start", "quantum")
# A long script has few events that differ, so that of each of so many there is one.
EVENTS_KEPT = 1 << 16
# The words with a colon that begin the comments above a configuration, in files of `conformance` and in findings.
RULE = "rule"
HEADS = (RULE, "last", "manual", "catches", "mark", "mode", "from", "right", "yours", "other", "before", "note", "gdb",
         "valgrind", "standard error")


class BadScript(Exception):
    """A text is no script, or no script with answers."""


class Role(enum.Enum):
    """What a number of an event is."""
    SLOT = "slot"
    BOARD = "board"
    REFERENCE = "reference"
    NUMBER = "number"
    COUNT = "count"
    VALUE = "value"


ROLES: dict[str, tuple[Role, ...]] = {
    "new": (Role.SLOT, Role.COUNT, Role.COUNT),
    "get": (Role.SLOT, Role.SLOT, Role.REFERENCE),
    "put": (Role.SLOT, Role.REFERENCE, Role.SLOT),
    "read": (Role.SLOT, Role.NUMBER),
    "write": (Role.SLOT, Role.NUMBER, Role.VALUE),
    "copy": (Role.SLOT, Role.SLOT),
    "clear": (Role.SLOT,),
    "same": (Role.SLOT, Role.SLOT),
    "shape": (Role.SLOT,),
    "post": (Role.BOARD, Role.SLOT),
    "take": (Role.SLOT, Role.BOARD),
    "end": (),
    "quantum": (),
    "start": (),
    "stat": (),
    "dump": (),
    "left": (),
    "report": (Role.VALUE,),
}


@dataclass(frozen=True)
class Event:
    """A command of a session, or a control."""
    who: str
    word: str
    numbers: tuple[int, ...]

    @property
    def is_command(self) -> bool:
        return self.who != CONTROL

    @functools.cached_property
    def is_plain(self) -> bool:
        """Whether any collector can be asked it."""
        return self.is_command or self.word in PLAIN_CONTROLS

    def roles(self) -> tuple[Role, ...]:
        return ROLES[self.word]

    @functools.cached_property
    def text(self) -> str:
        return " ".join((self.who, self.word, *map(str, self.numbers)))


@dataclass(frozen=True)
class Config:
    pages: int
    quantum: int
    trigger: int
    every: int

    @property
    def text(self) -> str:
        return f"config {self.pages} {self.quantum} {self.trigger} {self.every}"


@dataclass(frozen=True)
class Script:
    """A configuration and events. What is made of a script is kept with it, and events are shared between scripts, so
    that of a long one many others are soon made."""
    config: Config
    events: tuple[Event, ...]

    @functools.cached_property
    def text(self) -> str:
        return "\n".join([self.config.text, *[event.text for event in self.events], ""])

    @functools.cached_property
    def digest(self) -> bytes:
        """A few bytes that no other script has."""
        return hashlib.blake2b(self.text.encode(), digest_size=16).digest()

    def with_events(self, events: Iterable[Event]) -> Script:
        return replace(self, events=tuple(events))

    def prefix(self, count: int) -> Script:
        return self.with_events(self.events[:count])

    def plain(self) -> Script:
        """Without the controls that change nothing and ask for more than a session sees."""
        return self.with_events(event for event in self.events if event.is_plain)

    def sessions(self) -> list[str]:
        """The names of sessions, in the order in which they are first seen."""
        return list(dict.fromkeys(event.who for event in self.events if event.is_command))


class Mark(enum.Enum):
    """Whose replies a script of the folder `conformance` has."""
    EXACT = "exact"
    ANY = "any"


@dataclass(frozen=True)
class Case:
    """A script with its answers. `stated` has a reply for each event, or is empty if the script states none."""
    script: Script
    stated: tuple[str, ...] = ()
    mark: Mark = Mark.ANY
    # The rule that the script says it shows, if it says one.
    rule: str = ""

    def plain(self) -> Case:
        kept = tuple(reply for event, reply in zip(self.script.events, self.stated) if event.is_plain)
        return replace(self, script=self.script.plain(), stated=kept)


def read_number(word: str) -> int:
    if not re.fullmatch(r"0|[1-9][0-9]{0,19}", word):
        raise BadScript(f'"{word}" is no number')
    return int(word)


@functools.lru_cache(EVENTS_KEPT)
def read_event(line: str) -> Event:
    words = line.split(" ")
    if len(words) < 2 or words[1] not in ROLES or (words[0] == CONTROL) != (words[1] in CONTROLS):
        raise BadScript(f'"{line}" is no event')
    event = Event(words[0], words[1], tuple(read_number(word) for word in words[2:]))
    if len(event.numbers) != len(event.roles()):
        raise BadScript(f'"{line}" has another count of numbers')
    return event


def read_config(line: str) -> Config:
    word, *numbers = line.split(" ")
    if word != "config" or len(numbers) != 4:
        raise BadScript(f'"{line}": config PAGES QUANTUM TRIGGER EVERY comes first')
    return Config(*(read_number(number) for number in numbers))


@dataclass(frozen=True)
class Text:
    """A script as it is written: its comments above the configuration, and those directly below each event."""
    script: Script
    head: tuple[str, ...]
    below: tuple[tuple[str, ...], ...]


class Reader:
    """Reads lines of scripts, of which each begins with a configuration."""

    def __init__(self) -> None:
        self.head: list[str] = []
        self.scripts: list[tuple[Config, list[Event], list[list[str]]]] = []
        # Whether a comment stands directly below an event, or below another comment there.
        self.is_below = False

    def comment(self, text: str) -> None:
        if not self.scripts:
            self.head.append(text)
        elif self.is_below:
            self.scripts[-1][2][-1].append(text)

    def read(self, line: str) -> None:
        if line.startswith("#"):
            self.comment(line[1:].strip())
            return
        self.is_below = False
        if line and (not self.scripts or line.startswith("config ")):
            self.scripts.append((read_config(line), [], []))
        elif line:
            _, events, below = self.scripts[-1]
            events.append(read_event(line))
            below.append([])
            self.is_below = True


def read_texts(text: str) -> list[Text]:
    """The scripts of a text, one or several. The comments above the first are those of each."""
    reader = Reader()
    for number, line in enumerate(text.split("\n")[:-1], 1):
        try:
            reader.read(line)
        except BadScript as bad:
            raise BadScript(f"line {number}: {bad}") from None
    if not reader.scripts or not text.endswith("\n"):
        raise BadScript("there is no config, or the last line has no newline")
    return [Text(Script(config, tuple(events)), tuple(reader.head), tuple(map(tuple, below)))
            for config, events, below in reader.scripts]


def read_script(text: str) -> Script:
    """The only script of a text."""
    texts = read_texts(text)
    if len(texts) > 1:
        raise BadScript("it has several scripts")
    return texts[0].script


def rule_in(head: Iterable[str]) -> str:
    """The rule that comments say: in one line or several, up to the next word with a colon that a head has."""
    found, is_rule = [], False
    for line in head:
        word, colon, rest = line.partition(":")
        if colon and word in HEADS:
            is_rule = word == RULE
            line = rest.strip()
        if is_rule:
            found.append(line)
    return " ".join(found)


def read_plain(text: str) -> list[Case]:
    """Scripts alone, whatever is said of their replies."""
    return [Case(read.script, rule=rule_in(read.head)) for read in read_texts(text)]


def read_cases(text: str) -> list[Case]:
    """The scripts of a file of the folder `conformance`, which has several if it is a finding behind others."""
    return [case_of(read) for read in read_texts(text)]


def read_case(text: str) -> Case:
    """The only script of such a file."""
    read_script(text)
    return read_cases(text)[0]


def case_of(read: Text) -> Case:
    """A script with answers: it has one mark, and directly below each event one line with its reply."""
    marks = [line.removeprefix("mark:").strip() for line in read.head if line.startswith("mark:")]
    if marks not in [[mark.value] for mark in Mark]:
        raise BadScript("it has no line `# mark: exact` or `# mark: any`, or several")
    for event, replies in zip(read.script.events, read.below):
        if len(replies) != 1:
            raise BadScript(f"`{event.text}` has {len(replies)} lines of reply directly below it, and right is one")
    return Case(read.script, tuple(reply for (reply,) in read.below), Mark(marks[0]), rule_in(read.head))


def read_file(path: pathlib.Path, read: Callable[[str], Read]) -> Read:
    """What a file is read as. Comments may hold any bytes."""
    try:
        return read(path.read_bytes().decode("utf-8", "surrogateescape"))
    except BadScript as bad:
        raise BadScript(f"{path}: {bad}") from None
