"""The heap that never collects, of which each step can be taken back, for a search through orders of commands."""
from __future__ import annotations

from collections.abc import Callable
from typing import Optional, Union

from judging.scripts import Event, Role

SLOTS = 16
SESSIONS = 8
MOST_FIELDS = 216000
# An object has the session that makes it, and the number of its command there: the same in each order.
Object = tuple[int, int]
# A slot of a session or of the board, a reference or a number of an object, or whether a session has ended.
Cell = tuple[object, ...]
Value = Union[Object, int, bool, None]
BOARD = "board"
# The commands that look into the object of a slot, and which of their numbers is the slot, and which the field.
LOOKS: dict[str, tuple[int, Optional[int]]] = {
    "get": (1, 2), "put": (0, 1), "read": (0, 1), "write": (0, 1), "shape": (0, None)}
# Which count of a shape bounds the field: that of references or that of numbers.
BOUNDS = {"get": 0, "put": 0, "read": 1, "write": 1}


class World:
    """What slots, objects and the board hold, and what was there before each step."""

    def __init__(self) -> None:
        self.cells: dict[Cell, Value] = {}
        self.shapes: dict[Object, tuple[int, int]] = {}
        self.changes: list[tuple[Cell, Value]] = []
        # A sum over the cells, the same for the same contents.
        self.digest = 0
        self.effects: dict[str, Callable[[int, tuple[int, ...]], str]] = {
            "get": self.get, "put": self.put, "read": self.read, "write": self.write, "copy": self.copy,
            "clear": self.clear, "same": self.same, "shape": self.shape, "post": self.post, "take": self.take}

    def set(self, cell: Cell, value: Value) -> None:
        old = self.cells.get(cell)
        if old != value:
            self.changes.append((cell, old))
            self.digest ^= hash((cell, old)) ^ hash((cell, value))
            self.cells[cell] = value

    def mark(self) -> tuple[int, int]:
        return len(self.changes), self.digest

    def back(self, mark: tuple[int, int]) -> None:
        while len(self.changes) > mark[0]:
            cell, old = self.changes.pop()
            self.cells[cell] = old
        self.digest = mark[1]

    def refusal(self, who: int, event: Event) -> str | None:
        """Why a command is refused, by the first reason that holds."""
        if who >= SESSIONS:
            return "refused 7 too many sessions"
        if self.cells.get((who, "ended")):
            return "refused 6 ended"
        slots = (number for role, number in zip(event.roles(), event.numbers) if role in (Role.SLOT, Role.BOARD))
        if any(slot >= SLOTS for slot in slots):
            return "refused 1 bad slot"
        if event.word in LOOKS:
            return self.refusal_of_look(who, event)
        if event.word == "new" and sum(event.numbers[1:]) > MOST_FIELDS:
            return "refused 4 too large"
        return None

    def refusal_of_look(self, who: int, event: Event) -> str | None:
        slot, field = LOOKS[event.word]
        found = self.cells.get((who, event.numbers[slot]))
        if found is None:
            return "refused 2 null"
        if field is not None and event.numbers[field] >= self.shapes[found][BOUNDS[event.word]]:
            return "refused 3 no field"
        return None

    def answer(self, who: int, event: Event, place: int) -> str:
        """Does a command, which is the session's command of this number, and returns the right reply."""
        refusal = self.refusal(who, event)
        if refusal is not None:
            return refusal
        if event.word == "new":
            return self.new(who, event.numbers, (who, place))
        if event.word == "end":
            return self.end(who)
        return self.effects[event.word](who, event.numbers)

    def new(self, who: int, numbers: tuple[int, ...], made: Object) -> str:
        self.shapes[made] = (numbers[1], numbers[2])
        self.set((who, numbers[0]), made)
        return "ok"

    def end(self, who: int) -> str:
        for slot in range(SLOTS):
            self.set((who, slot), None)
        self.set((who, "ended"), True)
        return "ok"

    def get(self, who: int, numbers: tuple[int, ...]) -> str:
        self.set((who, numbers[0]), self.cells.get((self.cells[who, numbers[1]], "reference", numbers[2])))
        return "ok"

    def put(self, who: int, numbers: tuple[int, ...]) -> str:
        self.set((self.cells[who, numbers[0]], "reference", numbers[1]), self.cells.get((who, numbers[2])))
        return "ok"

    def read(self, who: int, numbers: tuple[int, ...]) -> str:
        return f"number {self.cells.get((self.cells[who, numbers[0]], 'number', numbers[1])) or 0}"

    def write(self, who: int, numbers: tuple[int, ...]) -> str:
        self.set((self.cells[who, numbers[0]], "number", numbers[1]), numbers[2])
        return "ok"

    def copy(self, who: int, numbers: tuple[int, ...]) -> str:
        self.set((who, numbers[0]), self.cells.get((who, numbers[1])))
        return "ok"

    def clear(self, who: int, numbers: tuple[int, ...]) -> str:
        self.set((who, numbers[0]), None)
        return "ok"

    def same(self, who: int, numbers: tuple[int, ...]) -> str:
        return "yes" if self.cells.get((who, numbers[0])) == self.cells.get((who, numbers[1])) else "no"

    def shape(self, who: int, numbers: tuple[int, ...]) -> str:
        return "shape {} {}".format(*self.shapes[self.cells[who, numbers[0]]])

    def post(self, who: int, numbers: tuple[int, ...]) -> str:
        self.set((BOARD, numbers[0]), self.cells.get((who, numbers[1])))
        return "ok"

    def take(self, who: int, numbers: tuple[int, ...]) -> str:
        self.set((who, numbers[0]), self.cells.get((BOARD, numbers[1])))
        return "ok"
