"""The modes in which a program is asked: each has words of its own among those that run it."""
from __future__ import annotations

import shlex
from collections.abc import Sequence
from dataclasses import dataclass

from judging.options import Usage

# Where a mode's words come among those of the program. If it stands nowhere they come last.
PLACE = "{}"


@dataclass(frozen=True)
class Mode:
    """The words that run the program, and what the author calls the mode: nothing, if no modes are given."""
    program: tuple[str, ...]
    name: str = ""


def placed(program: Sequence[str], words: Sequence[str]) -> tuple[str, ...]:
    if PLACE not in program:
        return (*program, *words)
    return tuple(each for word in program for each in (words if word == PLACE else [word]))


def mode_of(program: Sequence[str], name: str) -> Mode:
    try:
        words = placed(program, shlex.split(name))
    except ValueError as error:
        raise Usage(f"--mode {name}: {error}") from None
    if not words:
        raise Usage("--mode has no word, and neither has PROGRAM")
    return Mode(words, name or "without words")


def modes_of(program: Sequence[str], names: Sequence[str]) -> tuple[Mode, ...]:
    """The modes that are given, or the program as it is."""
    return tuple(mode_of(program, name) for name in names) or (Mode(tuple(program)),)
