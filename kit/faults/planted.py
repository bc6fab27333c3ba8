"""What a planted fault is, and what is known of a collector in whose source faults are planted."""
from __future__ import annotations

import enum
from dataclasses import dataclass


class Kind(enum.Enum):
    """The kinds of faults that such collectors have had."""
    BARRIER = "write barrier gone"
    RARE = "barrier missed once in N"
    REMEMBERED = "remembered set"
    MARKING = "marking"
    GREY = "grey list forgotten"
    BIRTH = "colour at birth"
    SWEEP = "sweep"
    OVERFLOW = "mark stack overflow"
    LARGE = "large objects"
    ROOTS = "roots"
    CYCLE = "start and end of a cycle"
    GROWTH = "growth"
    WEAK = "weak references"
    FINALIZER = "finalizers"
    LAZY = "lazy values"
    STACK = "moving a stack or a table"
    COMPACTION = "compaction"


@dataclass(frozen=True)
class Fault:
    """One edit of a file of the source: a text that occurs there once, and what takes its place."""
    name: str
    kind: Kind
    file: str
    old: str
    new: str
    # What a collector with it would do, in one sentence.
    harm: str
    # Why nothing is found, if nothing is.
    unseen: str = ""


@dataclass(frozen=True)
class Collector:
    """A released collector. Commands have the folder of its source as {tree}, that of the adapters as {here}, that of
    what is built as {built}, and what else a C compiler is given as {flags}: nothing, or what counts lines."""
    # That of its adapter in kit/adapters too.
    name: str
    # Debian's source package.
    package: str
    # What is run once, and what after each edit.
    prepares: tuple[str, ...]
    builds: tuple[str, ...]
    faults: tuple[Fault, ...]
