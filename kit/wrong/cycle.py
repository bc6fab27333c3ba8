"""The collector: its phases, their steps and what they cost, and quanta."""
from __future__ import annotations

from collections import deque
from dataclasses import replace

from heap import PLACES, Block, Heap, Page
from rules import SESSION_SLOTS, Phase, Rules

AFTER = {Phase.ROOTS: Phase.MARK, Phase.MARK: Phase.SWEEP, Phase.SWEEP: Phase.DEFRAG, Phase.DEFRAG: Phase.IDLE}


class Collector:
    """A collector over a heap and the root slots, which it shares with the sessions."""

    def __init__(self, rules: Rules, heap: Heap, slots: list[int | None], ended: set[int]) -> None:
        self.rules = rules
        self.heap = heap
        self.slots = slots
        self.ended = ended
        self.phase = Phase.IDLE
        self.cycle = rules.first_cycle
        self.ended_cycles = 0
        # How many pages the last quantum left free.
        self.free_before = heap.free_pages()
        # How many cycles are asked for.
        self.askings = 0
        # How far the phase has come: the next root slot, or the next place.
        self.cursor = 0
        self.grey: deque[int] = deque()
        # How many blocks the sweep has kept in the page where it is.
        self.kept = 0
        # How many quanta the cycle has had, whether the quantum has moved a block, and what the last one left unspent.
        self.quanta = 0
        self.has_moved = False
        self.saved = 0

    # Colours.

    def is_marked(self, block: Block) -> bool:
        return self.rules.is_marked(block.stamp, self.cycle)

    def birth_stamp(self) -> int:
        return self.cycle + self.rules.birth_stamp.get(self.phase, 0)

    def shade(self, place: int | None) -> None:
        """Marks the block that a reference leads to, and appends it to the grey list."""
        if place is None:
            return
        place = self.heap.resolve(place) if self.rules.shade_resolves else place
        block = self.heap.at(place)
        if not self.is_marked(block):
            if self.rules.marks_when_shaded:
                block.stamp = self.cycle
            self.grey.append(place)

    # Quanta.

    def ask(self) -> None:
        """Asks for a cycle."""
        if self.phase is Phase.IDLE or self.rules.start_is_kept:
            self.askings = self.askings + 1 if self.rules.askings_add_up else 1
        if not self.rules.start_waits:
            self._start_if_due(0)

    def quantum(self, units: int, trigger: int) -> int:
        """Takes steps that cost at most so many units together, and returns what they cost."""
        budget = units + self.saved
        left = budget
        self.has_moved = self.has_moved and self.rules.charge_is_by_cycle
        works = not self._start_if_due(trigger) or self.rules.starting_quantum_works
        self.quanta += self.phase is not Phase.IDLE
        while works and self.phase is not Phase.IDLE and self.rules.fits(cost := self._cost(), left):
            before = self.phase
            self._step()
            self._settle()
            left -= cost
            if self.phase is not before:
                left -= self.rules.phase_change_cost
                works = self.rules.phases_follow
            if not self.rules.one_cycle_a_quantum:
                self._start_if_due(trigger)
        self.saved = 0 if self.rules.rest_is_dropped else left
        self.free_before = self.heap.free_pages()
        return budget - left

    def _start_if_due(self, trigger: int) -> bool:
        """Starts a cycle if none runs and one is due, and says whether it did."""
        free = self.free_before if self.rules.trigger_looks_back else self.heap.free_pages()
        is_low = self.rules.is_low(free, trigger)
        if self.phase is not Phase.IDLE or not (self.askings or is_low):
            return False
        if self.rules.start_is_forgotten and (self.rules.trigger_forgets_start or not is_low):
            self.askings = max(0, self.askings - 1)
        self.cycle += 1
        self.phase, self.cursor = Phase.ROOTS, 0
        self.quanta = 0 if not self.rules.left_counts_on else self.quanta
        self.has_moved = False
        self._settle()
        return True

    def _settle(self) -> None:
        """Goes on to the next phase as long as the running one has nothing left to do."""
        while self._is_over():
            self.phase = AFTER[self.phase]
            self.cursor = PLACES * self.rules.first_swept_page if self.phase is Phase.SWEEP else 0
            if self.phase is Phase.IDLE:
                self._end()

    def _is_over(self) -> bool:
        places = PLACES * len(self.heap.pages)
        match self.phase:
            case Phase.ROOTS:
                while not self.rules.scans_ended_roots and self._is_ended_root():
                    self.cursor += 1
                return self.cursor >= len(self.rules.roots)
            case Phase.MARK:
                return not self.grey
            case Phase.SWEEP:
                return self.cursor >= places - (0 if self.rules.last_page_is_swept else PLACES)
            case Phase.DEFRAG:
                return self.cursor >= places
        return False

    def _is_ended_root(self) -> bool:
        return self.cursor < len(self.rules.roots) and self.rules.roots[self.cursor] // SESSION_SLOTS in self.ended

    def _end(self) -> None:
        self.ended_cycles += 1
        if self.rules.forwards_at_end:
            self._forward_slots()
        if self.rules.end_frees_forwarders:
            self._free_forwarders()

    def _cost(self) -> int:
        """What the next step costs."""
        match self.phase:
            case Phase.ROOTS:
                is_empty = self.slots[self.rules.roots[self.cursor]] is None
                return self.rules.empty_root_cost if is_empty else self.rules.root_cost
            case Phase.MARK:
                block = self.heap.at(self.grey[0 if self.rules.grey_is_queue else -1])
                return self.rules.mark_base + self.rules.mark_words(block.references, block.words)
            case Phase.SWEEP:
                return self._sweep_cost()
        return self._defrag_cost()

    def _step(self) -> None:
        match self.phase:
            case Phase.ROOTS:
                self.shade(self.slots[self.rules.roots[self.cursor]])
                self.cursor += 1
            case Phase.MARK:
                self._mark()
            case Phase.SWEEP:
                self._sweep()
            case Phase.DEFRAG:
                self._defrag()

    # Marking.

    def _mark(self) -> None:
        """Resolves, writes back and shades each reference of the first grey block."""
        place = self.grey.popleft() if self.rules.grey_is_queue else self.grey.pop()
        block = self.heap.at(place)
        if block.role not in self.rules.scanned_roles or not self.rules.marks_when_shaded and self.is_marked(block):
            return
        block.stamp = self.cycle
        for index in self.rules.scanned(range(block.references)):
            if block.words[index]:
                target = block.words[index] - 1
                if self.rules.writes_back:
                    block.words[index] = self.heap.resolve(target) + 1
                self.shade(target)

    # Sweep.

    def _page(self) -> tuple[int, int, Page]:
        number, slot = divmod(self.cursor, PLACES)
        return number, slot, self.heap.pages[number]

    def _sweep_cost(self) -> int:
        _, slot, page = self._page()
        if page.size == 0:
            return self.rules.swept_free_page_cost
        return 1 if slot in page.blocks else self.rules.empty_slot_cost

    def _sweep(self) -> None:
        """Passes a free page; or frees the block of the next slot if it is dead, and judges the page with its last."""
        number, slot, page = self._page()
        self.kept = self.kept if slot else 0
        if slot == 0 and page.size and self.rules.judges_first:
            self._flag(number, page)
        if slot in page.blocks and self._is_dead(page.blocks[slot]):
            self.heap.release(self.cursor)
        self.kept += slot in page.blocks
        last = page.slots - (1 if self.rules.last_slot_is_swept else 2)
        is_done = slot >= last or self.rules.page_is_freed_at_once and not page.blocks
        if is_done and page.size:
            self._judge(number, page)
        self.cursor = PLACES * (number + 1) if is_done else self.cursor + 1

    def _is_dead(self, block: Block) -> bool:
        if block.forward is not None:
            return self.rules.sweep_frees_forwarders
        return not self.is_marked(block)

    def _judge(self, number: int, page: Page) -> None:
        """Frees a page without blocks, and flags or unflags another."""
        live = self.kept if self.rules.judges_by_kept_blocks else len(page.blocks)
        if live == 0 and self.rules.empty_page_is_freed:
            self.heap.free_page(number)
        elif live and not self.rules.judges_first:
            self._flag(number, page)

    def _flag(self, number: int, page: Page) -> None:
        is_sparse = self.rules.is_few(len(page.blocks), page.slots) and self.heap.has_denser(number)
        page.is_flagged = is_sparse or page.is_flagged and not self.rules.flags_are_taken_away

    # Defragmentation.

    def _target(self) -> int | None:
        """Where the block of the next slot moves to, if it moves."""
        number, slot, page = self._page()
        block = page.blocks.get(slot)
        if block is None or block.forward is not None or block.role not in self.rules.moved_roles:
            return None
        return self.heap.find(page.size, self.rules.move_tiers, None if self.rules.moves_up else number)

    def _defrag_cost(self) -> int:
        page = self._page()[2]
        if not page.is_flagged:
            return self.rules.passed_page_cost
        if self._target() is None:
            return self.rules.passed_slot_cost
        words = self.rules.header + len(self.heap.at(self.cursor).words)
        cost = self.rules.move_base + self.rules.move_words(page.size, words)
        is_charged = not self.has_moved or self.rules.each_move_is_charged
        return cost + self.rules.slots_charge if is_charged else cost

    def _defrag(self) -> None:
        """Passes a page that isn't flagged, or a slot of a flagged page, and moves its block if it has a target."""
        number, slot, page = self._page()
        target = self._target() if page.is_flagged else None
        is_stuck = page.is_flagged and slot in page.blocks and target is None
        if target is not None:
            self._move(self.cursor, target)
        if is_stuck and self.rules.stuck_block_ends_phase:
            self.cursor = PLACES * len(self.heap.pages)
        elif page.is_flagged and slot + 1 < page.slots:
            self.cursor += 1
        else:
            self.cursor = PLACES * (number + 1)

    def _move(self, place: int, target: int) -> None:
        """Copies a block, leaves a forwarder in its place, and lets the root slots lead to the copy."""
        block = self.heap.at(place)
        self.heap.take(target, self.heap.pages[place // PLACES].size, replace(block, words=list(block.words)))
        block.forward = target
        if not self.rules.move_leaves_forwarder:
            self.heap.release(place)
        self.has_moved = True
        if not self.rules.forwards_at_end:
            self._forward_slots()

    def _forward_slots(self) -> None:
        for index in self.rules.forwarded_slots:
            place = self.slots[index]
            if place is not None:
                self.slots[index] = self.heap.resolve(place)

    def _free_forwarders(self) -> None:
        for number, page in list(self.heap.used_pages()):
            for slot, block in list(page.blocks.items()):
                if block.forward is not None:
                    self.heap.release(PLACES * number + slot)
            if not page.blocks:
                self.heap.free_page(number)
