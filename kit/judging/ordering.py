"""Looks for an order of logged commands in which each reply is right.

The search is that of Wing and Gong (Testing and verifying concurrent objects, 1993) with the memory of states of Lowe
(Testing for linearizability, 2017). Its result needs no trust: `metroheap check --log` judges the order.
"""
from __future__ import annotations

import itertools
from collections.abc import Iterator, Sequence
from dataclasses import dataclass
from typing import Union

from judging.logs import Log, Logged
from judging.scripts import HEAP_FULL
from judging.worlds import World

# Commands of a session's own slots, which are the same to all others whenever they come.
OWN = ("new", "copy", "clear", "same", "shape", "end")


@dataclass(frozen=True)
class Found:
    """An order in which each reply is right."""
    order: tuple[Logged, ...]
    states: int


@dataclass(frozen=True)
class Stopped:
    """There is no such order. The longest beginning of one, and the commands that may come next with the right replies
    there."""
    beginning: tuple[Logged, ...]
    next: tuple[tuple[Logged, str], ...]
    states: int


@dataclass(frozen=True)
class Undecided:
    """So many states were looked at, and there may be more."""
    states: int


Outcome = Union[Found, Stopped, Undecided]


class Spent(Exception):
    """As many states were looked at as may be."""


def earliest_ends(commands: Sequence[Logged]) -> list[int]:
    """Of each command the least end of it and those behind it."""
    return [*itertools.accumulate((command.end for command in reversed(commands)), min)][::-1]


class Search:
    """A walk through the orders of a log, from a state to those behind it."""

    def __init__(self, log: Log, most_states: int) -> None:
        self.most_states = most_states
        self.commands = log.of_sessions()
        self.earliest = {session: earliest_ends(commands) for session, commands in self.commands.items()}
        self.done = {session: 0 for session in self.commands}
        self.world = World()
        self.order: list[Logged] = []
        self.known: set[tuple[tuple[int, ...], int]] = set()
        self.states = 0
        self.stopped = Stopped((), (), 0)

    def choices(self) -> list[Logged]:
        """The commands that may come next: the next one of each session that began before any that is left had ended."""
        left = [session for session, commands in self.commands.items() if self.done[session] < len(commands)]
        heads = [self.commands[session][self.done[session]] for session in left]
        limit = min((self.earliest[session][self.done[session]] for session in left), default=0)
        return sorted((command for command in heads if command.begin <= limit), key=lambda it: it.end)

    def right_reply(self, command: Logged) -> str:
        """Does a command, and returns the right reply: a full heap's if the world takes the command that had it."""
        session = command.session
        if command.event.word == "new" and command.reply == HEAP_FULL:
            return self.world.refusal(session, command.event) or HEAP_FULL
        return self.world.answer(session, command.event, self.done[session])

    def take(self, command: Logged) -> str | None:
        """Takes a command as the next one. If its reply isn't right, it isn't taken, and the right one is returned."""
        mark = self.world.mark()
        right = self.right_reply(command)
        if right != command.reply:
            self.world.back(mark)
            return right
        self.order.append(command)
        self.done[command.session] += 1
        return None

    def back(self, mark: tuple[int, int], count: int) -> None:
        self.world.back(mark)
        while len(self.order) > count:
            self.done[self.order.pop().session] -= 1

    def is_free(self, command: Logged, count: int) -> bool:
        """Whether nothing is lost by taking a command at once: no other session sees what it does."""
        return count == 1 or command.event.word in OWN or command.reply.startswith("refused")

    def note_stop(self, choices: list[Logged]) -> None:
        """Keeps the longest beginning, with what is right of the commands that may come next there."""
        longest = len(self.stopped.beginning)
        if len(self.order) < longest or (len(self.order) == longest and self.stopped.next):
            return
        rights = []
        for command in choices:
            mark, count = self.world.mark(), len(self.order)
            right = self.take(command)
            self.back(mark, count)
            rights.append((command, command.reply if right is None else right))
        self.stopped = Stopped(tuple(self.order), tuple(rights), self.states)

    def hurry(self) -> bool:
        """Takes all commands that can come at once: free ones, and reads that are right. No if a free one is wrong."""
        while True:
            choices = self.choices()
            taken = False
            for command in choices:
                is_free = self.is_free(command, len(choices))
                if not is_free and command.event.word != "read":
                    continue
                taken = self.take(command) is None
                if taken:
                    break
                if is_free:
                    self.note_stop(choices)
                    return False
            if not taken:
                return True

    def is_new(self) -> bool:
        """Whether the state is met for the first time. Orders of commands that commute meet in one state."""
        key = (tuple(self.done.values()), self.world.digest)
        if key in self.known:
            return False
        self.known.add(key)
        return True

    def enter(self, command: Logged) -> bool:
        """Takes a command, and all that can come at once behind it, if that leads to a new state."""
        if self.take(command) is not None or not self.is_new():
            return False
        before = len(self.order)
        if not self.hurry():
            return False
        if len(self.order) > before and not self.is_new():
            return False
        self.states += 1
        if self.states > self.most_states:
            raise Spent
        return True

    def begin(self) -> list[Iterator[Logged]]:
        """The choices of the first state, if it is one."""
        if not self.hurry():
            return []
        return [iter(self.choices())]

    def is_whole(self) -> bool:
        return all(self.done[session] == len(commands) for session, commands in self.commands.items())

    def walk(self) -> bool:
        """Goes depth first, and says whether a whole order was found."""
        paths, marks = self.begin(), []
        while paths and not self.is_whole():
            mark, count = self.world.mark(), len(self.order)
            command = next(paths[-1], None)
            if command is None:
                self.note_stop(self.choices())
                paths.pop()
                if marks:
                    self.back(*marks.pop())
            elif self.enter(command):
                marks.append((mark, count))
                paths.append(iter(self.choices()))
            else:
                self.back(mark, count)
        return bool(paths)

    def outcome(self) -> Outcome:
        try:
            is_found = self.walk()
        except Spent:
            return Undecided(self.states)
        if is_found:
            return Found(tuple(self.order), self.states)
        return Stopped(self.stopped.beginning, self.stopped.next, self.states)


def find_order(log: Log, most_states: int) -> Outcome:
    return Search(log, most_states).outcome()
