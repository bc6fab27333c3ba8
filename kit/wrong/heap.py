"""Pages, blocks and the places that blocks get.

A place is the number `64 * page + slot`. What was at a place stays in the memory until something is placed there
again, as in a real heap. So a wrong collector that looks at what it freed sees what was there.
"""
from __future__ import annotations

import bisect
from collections.abc import Iterable, Iterator, Sequence
from dataclasses import dataclass, field

from rules import Role, Rules, Tier
from shapes import Part, Shapes

PLACES = 64


class Lost(LookupError):
    """A wrong collector looked where nothing ever was."""


@dataclass
class Block:
    """A header and words. The first words are references: 0 for null, else a place and 1 more."""
    birth: int
    part: int
    role: Role
    stamp: int
    shape: tuple[int, int]
    references: int
    words: list[int]
    forward: int | None = None


@dataclass
class Page:
    """A page has a class, or is free if its size is 0."""
    size: int = 0
    slots: int = 0
    is_flagged: bool = False
    blocks: dict[int, Block] = field(default_factory=dict)

    def has_room(self) -> bool:
        return len(self.blocks) < self.slots


class Heap:
    """All pages, and what is or was at each place."""

    def __init__(self, rules: Rules, pages: int) -> None:
        self.rules = rules
        self.shapes = Shapes(rules)
        self.pages = [Page() for _ in range(pages)]
        self.memory: dict[int, Block] = {}
        # The numbers of the pages of each class, and of those that have room, ascending. Free pages are of class 0.
        self.by_class: dict[int, list[int]] = {0: list(range(pages)), **{size: [] for size in self.shapes.sizes}}
        self.with_room: dict[int, list[int]] = {size: [] for size in self.shapes.sizes}
        self.last_page = 0

    def free_pages(self) -> int:
        return len(self.by_class[0])

    def at(self, place: int) -> Block:
        """The block that is or was at a place."""
        if place not in self.memory:
            raise Lost(f"nothing was ever at place {place}")
        return self.memory[place]

    def resolve(self, place: int) -> int:
        """Where a reference leads: past one forwarder."""
        forward = self.at(place).forward
        return place if forward is None else forward

    # Placement.

    def place_of(self, part: Part) -> tuple[int, int] | None:
        """The place that a part gets, and the class of its page."""
        size = self.shapes.class_of(part)
        if size is None:
            return None
        larger = [it for it in self.shapes.sizes if it > size] if self.rules.takes_larger_class else []
        for each in (size, *larger):
            if (place := self.find(each, self.rules.tiers)) is not None:
                return place, each
        return None

    def find(self, size: int, tiers: Iterable[Tier], below: int | None = None) -> int | None:
        """The first free place of a class in the first tier that has one; in pages below a number, if one is given."""
        for tier in tiers:
            for number in self._pages_of(tier, size):
                if below is None or number < below:
                    return PLACES * number + self._free_slot(self.pages[number], size)
        return None

    def _pages_of(self, tier: Tier, size: int) -> Iterable[int]:
        """The pages of a tier that have room for a block of a class, in the order in which they are looked at."""
        if tier is Tier.FREE:
            return self._in_order(self.by_class[0], self.rules.free_ascend)
        pages = (number for number in self._pages_like(size) if self._is_of(tier, self.pages[number]))
        if self.rules.fullest_first:
            return sorted(pages, key=lambda number: -len(self.pages[number].blocks))
        if self.rules.next_fit:
            return sorted(pages, key=lambda number: (number < self.last_page, number))
        return pages if self.rules.dense_ascend else self._in_order(list(pages), False)

    def _pages_like(self, size: int) -> Sequence[int]:
        if not self.rules.pages_match_by_slots:
            return self.with_room[size]
        alike = [it for it in self.shapes.sizes if self.shapes.slots_of(it) == self.shapes.slots_of(size)]
        return sorted(number for it in alike for number in self.with_room[it])

    @staticmethod
    def _is_of(tier: Tier, page: Page) -> bool:
        return tier is Tier.USED or page.is_flagged == (tier is Tier.SPARSE)

    @staticmethod
    def _in_order(pages: Sequence[int], ascend: bool) -> Sequence[int]:
        return pages if ascend else pages[::-1]

    def _free_slot(self, page: Page, size: int) -> int:
        slots = range(page.slots or self.shapes.slots_of(size))
        return next(slot for slot in (slots if self.rules.slots_ascend else reversed(slots)) if slot not in page.blocks)

    # Changes.

    def take(self, place: int, size: int, block: Block) -> None:
        """Puts a block at a free place. A free page becomes one of the class, without a flag."""
        number, slot = divmod(place, PLACES)
        page = self.pages[number]
        if page.size == 0:
            self.by_class[0].remove(number)
            bisect.insort(self.by_class[size], number)
            bisect.insort(self.with_room[size], number)
            page.size, page.slots, page.is_flagged = size, self.shapes.slots_of(size), False
        page.blocks[slot] = block
        if not page.has_room():
            self.with_room[page.size].remove(number)
        self.memory[place] = block
        self.last_page = number

    def release(self, place: int) -> None:
        """Frees a place; the page stays in use."""
        number, slot = divmod(place, PLACES)
        page = self.pages[number]
        if not page.has_room():
            bisect.insort(self.with_room[page.size], number)
        del page.blocks[slot]

    def free_page(self, number: int) -> None:
        """Makes a page free, whatever blocks it has."""
        page = self.pages[number]
        if page.has_room():
            self.with_room[page.size].remove(number)
        self.by_class[page.size].remove(number)
        bisect.insort(self.by_class[0], number)
        page.size, page.slots, page.is_flagged = 0, 0, False
        page.blocks.clear()

    # Looks.

    def used_pages(self) -> Iterator[tuple[int, Page]]:
        return ((number, page) for number, page in enumerate(self.pages) if page.size)

    def blocks(self) -> Iterator[Block]:
        for _, page in self.used_pages():
            yield from page.blocks.values()

    def has_denser(self, number: int) -> bool:
        """Whether an unflagged page of the same class has a lower number."""
        rules, page = self.rules, self.pages[number]
        if not rules.needs_denser:
            return True
        near = self.by_class[page.size] if rules.denser_is_of_class else [it for it, _ in self.used_pages()]
        for other in near:
            it = self.pages[other]
            is_near = other < number or not rules.denser_is_lower and other != number
            if is_near and not it.is_flagged and (it.has_room() or not rules.denser_has_room):
                return True
        return False
