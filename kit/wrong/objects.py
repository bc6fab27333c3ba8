"""Objects of one block or of several, made of the blocks of a heap."""
from __future__ import annotations

from collections.abc import Iterable
from dataclasses import dataclass

from heap import PLACES, Block, Heap
from rules import Rules
from shapes import Part


@dataclass(frozen=True)
class Header:
    """What all blocks of a new object have in their headers."""
    birth: int
    stamp: int
    shape: tuple[int, int]


class Objects:
    """Makes objects, and finds the words of their fields."""

    def __init__(self, rules: Rules, heap: Heap) -> None:
        self.rules = rules
        self.heap = heap
        self.shapes = heap.shapes

    # Making.

    def has_room(self, references: int, numbers: int) -> bool:
        """Whether each part of such an object finds a place. All that was taken is given back."""
        opened: set[int] = set()
        places: dict[int, int] = {}
        parts = self.shapes.parts(references, numbers)
        if self._place(parts, Header(0, 0, (references, numbers)), places, opened):
            self._give_back(places.values(), opened)
            return True
        self._give_back(places.values() if self.rules.undoes_blocks else (), opened if self.rules.undoes_pages else ())
        return False

    def make(self, references: int, numbers: int, birth: int, stamp: int) -> list[int]:
        """Makes an object for which there is room: the places of its parts in the order of their numbers."""
        places: dict[int, int] = {}
        parts = self.shapes.parts(references, numbers)
        self._place(parts, Header(birth, stamp, (references, numbers)), places, set())
        for part in parts:
            words = self.heap.at(places[part.number]).words
            for index, child in enumerate(part.children):
                words[index] = places[child] + 1
        return [places[part.number] for part in parts]

    def _place(self, parts: list[Part], header: Header, places: dict[int, int], opened: set[int]) -> bool:
        """Places the parts one by one, and says whether all found a place. Pages that were free go to `opened`."""
        for part in parts if self.rules.first_part_first else reversed(parts):
            found = self.heap.place_of(part)
            if found is None:
                return False
            place, size = found
            if self.heap.pages[place // PLACES].size == 0:
                opened.add(place // PLACES)
            self.heap.take(place, size, self._block(part, header, place))
            places[part.number] = place
        return True

    def _block(self, part: Part, header: Header, place: int) -> Block:
        birth = header.birth if self.rules.births_by_object else header.birth + part.number
        words = [0] * (part.references + part.numbers)
        if not self.rules.clears_words:
            old = self.heap.memory[place].words if place in self.heap.memory else []
            words[part.references:len(old)] = old[part.references:len(words)]
        return Block(birth, part.number, part.role, header.stamp, header.shape, part.references, words)

    def _give_back(self, places: Iterable[int], opened: Iterable[int]) -> None:
        for place in places:
            self.heap.release(place)
        for number in opened:
            if not self.heap.pages[number].blocks:
                self.heap.free_page(number)

    # Fields.

    def shape(self, place: int) -> tuple[int, int]:
        return self.heap.at(place).shape

    def reference(self, place: int, index: int) -> tuple[Block, int]:
        """The block that has a reference of an object, and which of its words it is."""
        references, numbers = self.shape(place)
        if self.shapes.is_one_block(references, numbers):
            return self.heap.at(place), index
        first, _ = self.shapes.first_fields(references, numbers)
        block, start = self._arraylet(place, first + index)
        return block, first + index - max(start, first)

    def number(self, place: int, index: int) -> tuple[Block, int]:
        """The block that has a number of an object, and which of its words it is."""
        references, numbers = self.shape(place)
        block, at = self.heap.at(place), index
        if not self.shapes.is_one_block(references, numbers):
            _, first = self.shapes.first_fields(references, numbers)
            block, start = self._arraylet(place, first + index)
            at = first + index - max(start, first)
        return block, (block.references if self.rules.numbers_lie_behind else 0) + at

    def _arraylet(self, place: int, field: int) -> tuple[Block, int]:
        """The arraylet of a field, and the first field that it has."""
        cut = self.shapes.cut(*self.shape(place))
        index = field // self.rules.lookup_run
        start = index * self.rules.lookup_run
        if not cut.middles:
            return self._child(place, index, self.rules.spine_resolves), start
        top = index // 60 if self.rules.finds_other_middles else 0
        middle = self._child_place(place, top, self.rules.spine_resolves)
        return self._child(middle, index % 60, self.rules.middle_resolves), start

    def _child(self, place: int, index: int, resolves: bool) -> Block:
        return self.heap.at(self._child_place(place, index, resolves))

    def _child_place(self, place: int, index: int, resolves: bool) -> int:
        child = self.heap.at(place).words[index] - 1
        return self.heap.resolve(child) if resolves else child
