"""Answers scripts by CPython: its reference counts, and the collector of cycles.

    python3 cpython.py [GENERATION | automatic] [EVERY]

After each EVERY commands (1) GENERATION (0) and those younger are collected. With `automatic` the collector comes by
itself after each few new objects. PYTHONMALLOC=debug in the environment poisons what is freed, and looks at it.

Objects keep their references in many ways, by their birth (cpython_keepers.py). Numbers are objects, most of them not
shared.

Cycles are the collections of all generations that gc.get_stats counts. No command falls within one: the collector stops
the program, so neither that nor a phase is said.
"""
from __future__ import annotations

import gc
import sys

# No caches in the folder of the kit.
sys.dont_write_bytecode = True

from cpython_keepers import keeper

SESSIONS, SLOTS = 8, 16
MOST_FIELDS = 216_000
# After how many new containers the collector comes by itself, and after how many times to the older generations.
THRESHOLDS, NEVER = (2, 2, 2), (0, 0, 0)
# Of each command what its words are: a slot of the session (s), one that has to name an object (o), a slot of the board
# (b), a reference (r) or a number (n) of that object, or anything else (-).
FORMS = {"new": "s--", "get": "sor", "put": "ors", "read": "on", "write": "on-", "copy": "ss", "clear": "s",
         "same": "ss", "shape": "o", "post": "bs", "take": "sb", "end": ""}


class Refused(Exception):
    """A command is refused, with the number and the words of its reason. Nothing was changed."""


class Item:
    """An object of a script."""
    births = 0

    def __init__(self, references: int, numbers: int) -> None:
        self.count = references
        self.numbers = [0] * numbers
        self.references = keeper(Item.births, references)
        Item.births += 1


class Run:
    """What a line `config` begins anew. The board is behind the slots of the last session."""

    def __init__(self) -> None:
        self.roots = [None] * ((SESSIONS + 1) * SLOTS)
        self.names = {}
        self.ended = set()
        self.cycles_before = cycles()
        Item.births = 0

    def command(self, session: int, word: str, operands: list[int]) -> str:
        """The reply to a command. It is refused by the first reason that holds, in the order 7, 6, 1, 2, 3, 4."""
        if session >= SESSIONS:
            raise Refused("7 too many sessions")
        if session in self.ended:
            raise Refused("6 ended")
        form = FORMS[word]
        operands = [root_of(session, letter, operand) for letter, operand in zip(form, operands)]
        self.require_object(form, operands)
        return self.perform(session, word, operands)

    def require_object(self, form: str, operands: list[int]) -> None:
        """Refuses a command without the object, or without the field of it, that its form asks for."""
        if "o" not in form:
            return
        item = self.roots[operands[form.index("o")]]
        if item is None:
            raise Refused("2 null")
        for letter, count in (("r", item.count), ("n", len(item.numbers))):
            if letter in form and operands[form.index(letter)] >= count:
                raise Refused("3 no field")

    def perform(self, session: int, word: str, operands: list[int]) -> str:
        """Does a command whose slots are roots."""
        roots = self.roots
        first, second, third = (*operands, 0, 0, 0)[:3]
        if word == "new":
            if second + third > MOST_FIELDS:
                raise Refused("4 too large")
            roots[first] = Item(second, third)
        elif word == "get":
            roots[first] = roots[second].references[third]
        elif word == "put":
            roots[first].references[second] = roots[third]
        elif word == "read":
            return f"number {roots[first].numbers[second]}"
        elif word == "write":
            roots[first].numbers[second] = third
        elif word == "clear":
            roots[first] = None
        elif word == "same":
            return "yes" if roots[first] is roots[second] else "no"
        elif word == "shape":
            return f"shape {roots[first].count} {len(roots[first].numbers)}"
        elif word == "end":
            self.ended.add(session)
            roots[session * SLOTS:(session + 1) * SLOTS] = [None] * SLOTS
        else:
            roots[first] = roots[second]
        return "ok"

    def answer(self, name: str, word: str, operands: list[int]) -> str:
        session = self.names.setdefault(name, min(len(self.names), SESSIONS))
        try:
            return self.command(session, word, operands)
        except Refused as refused:
            return f"refused {refused}"


def root_of(session: int, letter: str, operand: int) -> int:
    """Which root an operand is. One that is no slot stays as it is."""
    if letter not in "sob":
        return operand
    if operand >= SLOTS:
        raise Refused("1 bad slot")
    return (SESSIONS if letter == "b" else session) * SLOTS + operand


def cycles() -> int:
    return sum(generation["collections"] for generation in gc.get_stats())


def main() -> None:
    numbers = [int(word) for word in sys.argv[1:] if word.isdigit()]
    is_automatic = "automatic" in sys.argv
    generation = None if is_automatic or not numbers else numbers.pop(0)
    every = numbers[0] if numbers else 1
    # What was there before any script is looked at no more.
    gc.freeze()
    gc.set_threshold(*(THRESHOLDS if is_automatic else NEVER))
    run, commands = Run(), 0
    for who, *words in map(str.split, sys.stdin):
        if who == "config":
            run = Run()
        elif who == "*":
            if words[0] == "quantum":
                gc.collect()
            print(f"cycles {cycles() - run.cycles_before}", flush=True)
        else:
            print(run.answer(who, words[0], [int(word) for word in words[1:]]), flush=True)
            commands += 1
            if generation is not None and commands % every == 0:
                gc.collect(generation)


main()
