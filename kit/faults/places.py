"""What a place of a collector's source is, and why a part of it is never run."""
from __future__ import annotations

import enum
from collections.abc import Iterable
from dataclasses import dataclass
from typing import Optional, Union


class What(enum.Enum):
    """What a place does for the collector."""
    BARRIER = "barrier"
    STORE = "store with a barrier"
    BIRTH = "birth of an object"
    DEATH = "freeing"
    ROOTS = "roots"
    MARK = "marking"
    GREY = "grey list"
    COPY = "copying"
    COMPACTION = "compaction"
    REMEMBERED = "remembered set"
    AGES = "ages of objects"
    SWEEP = "sweep"
    WEAK = "ephemeron and weak path"
    FINALIZER = "finalizer path"
    GROWTH = "growth and shrinking"
    OVERFLOW = "overflow path"
    CYCLE = "start and end of a cycle"
    PACE = "pace of the collector"
    EMERGENCY = "emergency collection"
    HELP = "help for others"


class Reason(enum.Enum):
    """Why something is never run, where that is so at several places."""
    REFUSED = "It runs if memory is refused for good, and then the program has failed."
    THREADS = "It serves threads of the operating system, of which the adapter has one."
    PLATFORM = "It is there for other platforms."
    DEBUGGING = "It is there for debugging alone."
    DEAD = "Nothing calls it."
    UNREACHABLE = "No program can bring it about."
    MISUSE = "It reports a mistake of the program that uses the library."
    SIZE = "It needs more memory than a script may have."
    TIMING = "Whether it runs is a matter of luck, as threads take turns."


class Way(enum.Enum):
    """How the lines of a collector are counted."""
    GCOV = enum.auto()
    GO = enum.auto()


# A reason that one place alone has is a sentence.
Why = Union[Reason, str]


@dataclass(frozen=True)
class Place:
    """A function, or so many lines from one on that has a text. The text occurs once in the file."""
    name: str
    what: What
    # Why it, or some of its lines, are never run: nothing, if all are.
    unrun: tuple[Why, ...] = ()
    # How many lines a place has that is smaller than a function. Functions have none.
    lines: int = 0
    # How many lines behind that with the text it begins.
    behind: int = 0
    # How many lines are never run at most. If it is given, the reason doesn't hide others.
    most: Optional[int] = None


@dataclass(frozen=True)
class Source:
    """A file of a collector's source. If it is whole, each of its functions is a place."""
    file: str
    places: tuple[Place, ...]
    is_whole: bool = True


@dataclass(frozen=True)
class Plan:
    """What is counted of a collector."""
    # That of its adapter, and of the collector in which faults are planted, if there is one.
    name: str
    sources: tuple[Source, ...]
    # Files of counts, as a pattern, that aren't read: those of what is compiled once more to check itself.
    left_out: str = "none"
    way: Way = Way.GCOV


def function(name: str, what: What, *unrun: Why, most: Optional[int] = None) -> Place:
    return Place(name, what, unrun, most=most)


def functions(what: What, names: str) -> Iterable[Place]:
    """Functions that are run in all their lines. Their names have blanks between them."""
    return [Place(name, what) for name in names.split()]


def lines(text: str, what: What, *unrun: Why, behind: int = 0, count: int = 1) -> Place:
    """A place that begins at the line that has a text, or some lines behind it."""
    return Place(text, what, unrun, count, behind)
