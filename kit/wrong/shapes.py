"""Size classes, and the parts that objects are cut into."""
from __future__ import annotations

from dataclasses import dataclass

from rules import Role, Rules, divided_up


@dataclass(frozen=True)
class Part:
    """One block of an object: how many references and numbers it has, and the parts that its references lead to."""
    number: int
    role: Role
    references: int
    numbers: int
    children: range = range(0)


@dataclass(frozen=True)
class Cut:
    """How many parts of each kind an object of several blocks has, and the numbers of the first of them."""
    runs: int
    middles: int
    first_middle: int
    first_arraylet: int


class Shapes:
    """Classes and parts by the rules."""

    def __init__(self, rules: Rules) -> None:
        self.rules = rules
        sizes = [4]
        while sizes[-1] < 64:
            sizes.append(rules.next_class(sizes[-1]))
        self.sizes = (*sizes[:-1], rules.largest_class)

    def class_of(self, part: Part) -> int | None:
        """The least class that has room for a part."""
        words = self.rules.header + part.references + self.rules.words_of_a_number * part.numbers
        return next((size for size in self.sizes if self.rules.class_holds(size, words)), None)

    def slots_of(self, size: int) -> int:
        return self.rules.slots_in(self.rules.page_words, size)

    def is_one_block(self, references: int, numbers: int) -> bool:
        return references + numbers <= self.rules.most_in_block

    def cut(self, references: int, numbers: int) -> Cut:
        runs = self.rules.runs_in(references + numbers, self.rules.run)
        middles = divided_up(runs, 60) if runs > self.rules.most_in_spine else 0
        if self.rules.middles_come_first:
            return Cut(runs, middles, 1, 1 + middles)
        return Cut(runs, middles, 1 + runs, 1)

    def first_fields(self, references: int, numbers: int) -> tuple[int, int]:
        """Which field of an object of several blocks is its first reference, and which its first number."""
        return (0, references) if self.rules.references_come_first else (numbers, 0)

    def parts(self, references: int, numbers: int) -> list[Part]:
        """All parts of an object, in the order of their numbers."""
        if self.is_one_block(references, numbers):
            return [Part(0, Role.BLOCK, references, numbers)]
        cut = self.cut(references, numbers)
        below, first = (cut.middles, cut.first_middle) if cut.middles else (cut.runs, cut.first_arraylet)
        middles = [self._middle(cut, index) for index in range(cut.middles)]
        arraylets = [self._arraylet(cut, index, references, numbers) for index in range(cut.runs)]
        others = sorted((*middles, *arraylets), key=lambda part: part.number)
        return [Part(0, Role.SPINE, below, 0, range(first, first + below)), *others]

    def _middle(self, cut: Cut, index: int) -> Part:
        count = min(60, cut.runs - 60 * index)
        first = cut.first_arraylet + 60 * index
        words = count if self.rules.trims_last_middle else 60
        return Part(cut.first_middle + index, Role.MIDDLE, words, 0, range(first, first + count))

    def _arraylet(self, cut: Cut, index: int, references: int, numbers: int) -> Part:
        start = self.rules.run * index
        end = min(start + self.rules.run, references + numbers)
        first, _ = self.first_fields(references, numbers)
        held = max(0, min(end, first + references) - max(start, first))
        rest = (end - start if self.rules.trims_last_arraylet else self.rules.run) - held
        return Part(cut.first_arraylet + index, Role.ARRAYLET, held, rest)
