"""What sessions may do: refusals in their order, and the commands on slots, objects and the board."""
from __future__ import annotations

from collections.abc import Callable
from dataclasses import dataclass
from itertools import count

from cycle import Collector
from heap import Heap, Lost
from objects import Objects
from rules import ROOT_SLOTS, SESSION_SLOTS, Phase, Refusal, Rules

# Which number of a command is the slot that it looks through, and which the field that it looks for there.
LOOKS_THROUGH = {"get": 1, "put": 0, "read": 0, "write": 0, "shape": 0, "copy": 1, "post": 1}
FIELD = {"get": 2, "put": 1, "read": 1, "write": 1}


@dataclass(frozen=True)
class Call:
    """A command with the number of its session."""
    who: int
    word: str
    numbers: tuple[int, ...]


@dataclass(frozen=True)
class Done:
    """The reply to a command that was done, and how many blocks it made."""
    reply: str = "ok"
    blocks: int = 1


class Sessions:
    """The sessions over a heap, with their root slots and the board."""

    def __init__(self, rules: Rules, heap: Heap) -> None:
        self.rules = rules
        self.heap = heap
        self.objects = Objects(rules, heap)
        # The places of the objects that the root slots name.
        self.slots: list[int | None] = [None] * ROOT_SLOTS
        self.ended: set[int] = set()
        self.collector = Collector(rules, heap, self.slots, self.ended)
        self.names: dict[str, int] = {}
        self.births = rules.first_birth
        self.tests: dict[Refusal, Callable[[Call], bool]] = {
            Refusal.TOO_MANY: lambda call: call.who >= rules.sessions,
            Refusal.ENDED: lambda call: call.who in self.ended,
            Refusal.BAD_SLOT: self._has_bad_slot,
            Refusal.NULL: self._looks_through_empty,
            Refusal.NO_FIELD: self._has_no_field,
            Refusal.TOO_LARGE: lambda call: rules.fields_of(*call.numbers[1:]) > rules.most_fields,
            Refusal.HEAP_FULL: lambda call: not self.objects.has_room(*call.numbers[1:]),
        }
        self.commands: dict[str, Callable[[int, tuple[int, ...]], Done]] = {
            "new": self._new, "get": self._get, "put": self._put, "read": self._read, "write": self._write,
            "copy": self._copy, "clear": self._clear, "same": self._same, "shape": self._shape, "post": self._post,
            "take": self._take, "end": self._end,
        }

    # Names.

    def number_of(self, name: str) -> int:
        """The number of a session; a name that wasn't seen gets the next."""
        name = name[:self.rules.name_letters]
        if name not in self.names:
            taken = set(self.names.values())
            self.names[name] = next(number for number in count() if number not in taken)
        return self.rules.name_past_last(self.names[name])

    def forget(self, name: str) -> None:
        self.names.pop(name, None)

    # Refusals.

    def refusal(self, call: Call) -> Refusal | None:
        """The first refusal of a command's order that holds."""
        return next((it for it in self.rules.order[call.word] if self.tests[it](call)), None)

    def _has_bad_slot(self, call: Call) -> bool:
        of_session = any(call.numbers[index] >= self.rules.slot_limit for index in self.rules.own_slots[call.word])
        of_board = any(call.numbers[index] >= SESSION_SLOTS for index in self.rules.board_slots.get(call.word, ()))
        return of_session or of_board

    def _looked_through(self, call: Call) -> int | None:
        """The place of the object that a command looks through; none if its slot is empty, or isn't there."""
        slot = call.numbers[LOOKS_THROUGH[call.word]]
        return self.slots[own(call.who, slot)] if slot < self.rules.slot_limit else None

    def _looks_through_empty(self, call: Call) -> bool:
        is_slot = call.numbers[LOOKS_THROUGH[call.word]] < self.rules.slot_limit
        return is_slot and self._looked_through(call) is None

    def _has_no_field(self, call: Call) -> bool:
        place = self._looked_through(call)
        if place is None:
            return False
        limit = self.rules.reference_limit if call.word in ("get", "put") else self.rules.number_limit
        return call.numbers[FIELD[call.word]] >= limit(*self.objects.shape(place))

    # Slots.

    def do(self, call: Call) -> Done:
        """Does a command that isn't refused."""
        return self.commands[call.word](call.who, call.numbers)

    def shade_slot(self, index: int) -> None:
        self.collector.shade(self.slots[index])

    def _write_slot(self, word: str, index: int, value: int | None) -> None:
        """Overwrites a slot; before it the barrier, if the command has one in this phase."""
        collector = self.collector
        is_wanted = value is not None or self.rules.empty_value_has_barrier
        is_reached = index >= collector.cursor or self.rules.scanned_slot_has_barrier
        if (word, collector.phase) in self.rules.barriers and is_wanted and is_reached:
            collector.shade(self.slots[index] if self.rules.slot_barrier_shades_old else value)
        self.slots[index] = value

    def _transfer(self, word: str, target: int, source: int) -> Done:
        """Lets a slot name what another names."""
        value = self.slots[source]
        if value is not None or word in self.rules.empty_source_empties:
            self._write_slot(word, target, value)
        if word not in self.rules.source_stays:
            self.slots[source] = None
        return Done()

    def _board(self, slot: int) -> int:
        return self.rules.board_start + slot % SESSION_SLOTS

    def _copy(self, who: int, numbers: tuple[int, ...]) -> Done:
        return self._transfer("copy", own(who, numbers[0]), own(who, numbers[1]))

    def _post(self, who: int, numbers: tuple[int, ...]) -> Done:
        return self._transfer("post", self._board(numbers[0]), own(who, numbers[1]))

    def _take(self, who: int, numbers: tuple[int, ...]) -> Done:
        return self._transfer("take", own(who, numbers[0]), self._board(numbers[1]))

    def _clear(self, who: int, numbers: tuple[int, ...]) -> Done:
        self._write_slot("clear", own(who, numbers[0]), None)
        return Done()

    def _same(self, who: int, numbers: tuple[int, ...]) -> Done:
        one, other = (self.slots[own(who, slot)] for slot in numbers)
        is_same = one == other
        if one is None and other is None:
            is_same = self.rules.empties_are_same
        elif one is not None and other is not None and self.rules.same_by_shape:
            is_same = self.objects.shape(one) == self.objects.shape(other)
        return Done("yes" if is_same else "no")

    def _end(self, who: int, _numbers: tuple[int, ...]) -> Done:
        for slot in self.rules.end_empties_slots:
            self._write_slot("end", own(who, slot), None)
        if self.rules.end_empties_board:
            for slot in range(SESSION_SLOTS):
                self._write_slot("end", self._board(slot), None)
        if self.rules.ended_names_stay:
            self.ended.add(who)
        else:
            self.names = {name: number for name, number in self.names.items() if number != who}
        return Done()

    # Objects and fields.

    def _new(self, who: int, numbers: tuple[int, ...]) -> Done:
        slot, *shape = numbers
        places = self.objects.make(*shape, self.births, self.collector.birth_stamp())
        self.births += 1 if self.rules.births_by_object else len(places)
        if self.rules.born_grey and self.collector.phase in (Phase.ROOTS, Phase.MARK):
            self.collector.grey.extend(places)
        self._write_slot("new", own(who, slot), places[0])
        return Done(blocks=len(places))

    def _get(self, who: int, numbers: tuple[int, ...]) -> Done:
        target, source, index = numbers
        block, at = self.objects.reference(self._named(who, source), index)
        value = block.words[at] - 1 if block.words[at] else None
        if value is not None and self.rules.get_resolves:
            value = self.heap.resolve(value)
        if value is not None or "get" in self.rules.empty_source_empties:
            self._write_slot("get", own(who, target), value)
        return Done()

    def _put(self, who: int, numbers: tuple[int, ...]) -> Done:
        source, index, value_slot = numbers
        block, at = self.objects.reference(self._named(who, source), index)
        old = block.words[at] - 1 if block.words[at] else None
        value = self.slots[own(who, value_slot)]
        if value is None and "put" not in self.rules.empty_source_empties:
            return Done()
        is_wanted = value is not None or self.rules.empty_value_has_barrier
        if ("put", self.collector.phase) in self.rules.barriers and is_wanted:
            self.collector.shade(old if self.rules.field_barrier_shades_old else value)
        block.words[at] = 0 if value is None else value + 1
        return Done()

    def _read(self, who: int, numbers: tuple[int, ...]) -> Done:
        block, at = self.objects.number(self._named(who, numbers[0]), numbers[1])
        return Done(f"number {block.words[at]}")

    def _write(self, who: int, numbers: tuple[int, ...]) -> Done:
        block, at = self.objects.number(self._named(who, numbers[0]), numbers[1])
        block.words[at] = numbers[2] & (1 << self.rules.number_bits) - 1
        return Done()

    def _shape(self, who: int, numbers: tuple[int, ...]) -> Done:
        place = self.slots[own(who, numbers[0])]
        if place is None:
            return Done("shape 0 0")
        references, count_of_numbers = self.rules.shape(*self.objects.shape(place))
        if self.rules.shape_of_first_block:
            block = self.heap.at(place)
            references, count_of_numbers = block.references, len(block.words) - block.references
        return Done(f"shape {references} {count_of_numbers}")

    def _named(self, who: int, slot: int) -> int:
        place = self.slots[own(who, slot)]
        if place is None:
            raise Lost("a slot is empty")
        return place


def own(who: int, slot: int) -> int:
    """The index of a session's slot among all root slots."""
    return SESSION_SLOTS * who + slot
