"""What is counted of a collector: how often its functions and lines were run."""
from __future__ import annotations

import pathlib
from collections.abc import Mapping, Sequence
from dataclasses import dataclass, field
from typing import Any, Protocol


@dataclass
class Line:
    """How often a line was run, and whether a part of it never was."""
    runs: int = 0
    is_part: bool = False


@dataclass
class Function:
    """How often a function was called, and its lines by their numbers."""
    start: int
    runs: int = 0
    lines: dict[int, Line] = field(default_factory=dict)


# The functions of each file by their names.
Files = dict[str, dict[str, Function]]


@dataclass
class Counted:
    """What was counted of a collector: its version, when, in how many modes, by how many scripts of which kind, and the
    functions of each file."""
    version: str
    day: str
    modes: int
    scripts: dict[str, int]
    files: Files

    @staticmethod
    def read(kept: Mapping[str, Any]) -> Counted:
        files = {file: {name: read_function(each) for name, each in functions.items()}
                 for file, functions in kept["files"].items()}
        return Counted(**{**kept, "files": files})


def read_function(kept: Mapping[str, Any]) -> Function:
    return Function(kept["start"], kept["runs"], {int(number): Line(**each) for number, each in kept["lines"].items()})


class Counters(Protocol):
    """A collector that is built with counters for its lines."""
    # Where its adapter is.
    built: pathlib.Path

    def build(self) -> None:
        """Builds it and its adapter."""

    def forget(self) -> None:
        """Drops the counts of runs before this one."""

    def version(self) -> str:
        """Which version it is."""

    def read(self, files: Sequence[str]) -> Files:
        """The sum of what was counted of these files since."""
