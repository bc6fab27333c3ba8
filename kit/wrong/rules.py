"""The rules of the heap and its collector, as values that the code looks up.

The values given here are the right ones. A bent rule is a copy of `Rules` with another value for one (`bends.py`).
"""
from __future__ import annotations

import operator
from collections.abc import Callable, Mapping, Sequence
from dataclasses import dataclass, field
from enum import Enum

SESSIONS = 8
SESSION_SLOTS = 16
ROOT_SLOTS = (SESSIONS + 1) * SESSION_SLOTS


class Phase(Enum):
    """What the collector is at."""
    IDLE = "idle"
    ROOTS = "roots"
    MARK = "mark"
    SWEEP = "sweep"
    DEFRAG = "defrag"


class Tier(Enum):
    """Where a place is looked for."""
    DENSE = "unflagged pages of the class"
    FREE = "free pages"
    SPARSE = "flagged pages of the class"
    USED = "pages of the class, flagged or not"


class Role(Enum):
    """What a part of an object is."""
    BLOCK = "the only block"
    SPINE = "the first block of several"
    MIDDLE = "a middle spine"
    ARRAYLET = "an arraylet"


class Refusal(Enum):
    """Why a command is refused."""
    BAD_SLOT = 1
    NULL = 2
    NO_FIELD = 3
    TOO_LARGE = 4
    HEAP_FULL = 5
    ENDED = 6
    TOO_MANY = 7

    def reply(self) -> str:
        return f"refused {self.value} {REFUSAL_TEXTS[self]}"


REFUSAL_TEXTS = {
    Refusal.BAD_SLOT: "bad slot",
    Refusal.NULL: "null",
    Refusal.NO_FIELD: "no field",
    Refusal.TOO_LARGE: "too large",
    Refusal.HEAP_FULL: "heap full",
    Refusal.ENDED: "ended",
    Refusal.TOO_MANY: "too many sessions",
}

_ALL = (Refusal.TOO_MANY, Refusal.ENDED)
_SLOTS = (*_ALL, Refusal.BAD_SLOT)
_FIELDS = (*_SLOTS, Refusal.NULL, Refusal.NO_FIELD)

# What each command may be refused by, in the order in which it is looked at.
ORDER: Mapping[str, tuple[Refusal, ...]] = {
    "new": (*_SLOTS, Refusal.TOO_LARGE, Refusal.HEAP_FULL),
    "get": _FIELDS,
    "put": _FIELDS,
    "read": _FIELDS,
    "write": _FIELDS,
    "copy": _SLOTS,
    "clear": _SLOTS,
    "same": _SLOTS,
    "shape": (*_SLOTS, Refusal.NULL),
    "post": _SLOTS,
    "take": _SLOTS,
    "end": _ALL,
}

# Which numbers of a command, counted from 0, are slots of the session, and which are slots of the board.
OWN_SLOTS: Mapping[str, tuple[int, ...]] = {
    "new": (0,), "get": (0, 1), "put": (0, 2), "read": (0,), "write": (0,), "copy": (0, 1), "clear": (0,),
    "same": (0, 1), "shape": (0,), "post": (1,), "take": (0,), "end": (),
}
BOARD_SLOTS: Mapping[str, tuple[int, ...]] = {"post": (0,), "take": (1,)}

SLOT_WRITERS = ("new", "get", "copy", "clear", "post", "take", "end")

# In which phases a command shades what it overwrites.
BARRIERS = frozenset({*((word, Phase.ROOTS) for word in (*SLOT_WRITERS, "put")), ("put", Phase.MARK)})


def nine_eighths_up(size: int) -> int:
    return divided_up(9 * size, 8)


def divided_up(number: int, by: int) -> int:
    return -(-number // by)


def references_in_order(places: Sequence[int]) -> Sequence[int]:
    return places


def references_alone(references: int, _words: Sequence[int]) -> int:
    return references


def is_quarter(live: int, slots: int) -> bool:
    return 4 * live <= slots


def shape_as_made(references: int, numbers: int) -> tuple[int, int]:
    return references, numbers


def only_references(references: int, _numbers: int) -> int:
    return references


def only_numbers(_references: int, numbers: int) -> int:
    return numbers


def class_alone(size: int, _words: int) -> int:
    return size


def floor(every: int, quantum: int, window: int) -> int:
    periods, rest = divmod(window, every + quantum)
    return every * periods + max(0, rest - quantum)


@dataclass(frozen=True)
class Rules:
    """All choices. Costs are in units, and sizes in words."""

    # Classes and pages.
    header: int = 4
    words_of_a_number: int = 1
    next_class: Callable[[int], int] = nine_eighths_up
    largest_class: int = 64
    class_holds: Callable[[int, int], bool] = operator.ge
    page_words: int = 256
    slots_in: Callable[[int, int], int] = operator.floordiv
    pages_match_by_slots: bool = False

    # Parts of an object.
    most_in_block: int = 60
    run: int = 60
    runs_in: Callable[[int, int], int] = divided_up
    most_in_spine: int = 60
    lookup_run: int = 60
    references_come_first: bool = True
    trims_last_arraylet: bool = True
    trims_last_middle: bool = True
    middles_come_first: bool = True
    finds_other_middles: bool = True

    # Placement.
    tiers: tuple[Tier, ...] = (Tier.DENSE, Tier.FREE, Tier.SPARSE)
    dense_ascend: bool = True
    free_ascend: bool = True
    slots_ascend: bool = True
    fullest_first: bool = False
    next_fit: bool = False
    takes_larger_class: bool = False
    first_part_first: bool = True
    clears_words: bool = True
    undoes_blocks: bool = True
    undoes_pages: bool = True
    births_by_object: bool = True
    first_birth: int = 0

    # Refusals.
    order: Mapping[str, tuple[Refusal, ...]] = field(default_factory=lambda: ORDER)
    own_slots: Mapping[str, tuple[int, ...]] = field(default_factory=lambda: OWN_SLOTS)
    board_slots: Mapping[str, tuple[int, ...]] = field(default_factory=lambda: BOARD_SLOTS)
    slot_limit: int = SESSION_SLOTS
    most_fields: int = 216_000
    too_large_is_full: bool = False
    full_new_takes_birth: bool = False
    full_new_empties_slot: bool = False
    refused_get_empties_slot: bool = False
    fields_of: Callable[[int, int], int] = operator.add
    reference_limit: Callable[[int, int], int] = only_references
    number_limit: Callable[[int, int], int] = only_numbers

    # Sessions and what slots and fields mean.
    sessions: int = SESSIONS
    name_letters: int = 16
    name_past_last: Callable[[int], int] = int
    refused_names_count: bool = True
    ended_names_stay: bool = True
    end_empties_slots: Sequence[int] = range(SESSION_SLOTS)
    end_empties_board: bool = False
    board_start: int = SESSIONS * SESSION_SLOTS
    empty_source_empties: frozenset[str] = frozenset({"get", "put", "copy", "post", "take"})
    source_stays: frozenset[str] = frozenset({"copy", "post", "take"})
    empties_are_same: bool = True
    same_by_shape: bool = False
    numbers_lie_behind: bool = True
    shape: Callable[[int, int], tuple[int, int]] = shape_as_made
    shape_of_first_block: bool = False
    number_bits: int = 64

    # Barriers.
    barriers: frozenset[tuple[str, Phase]] = BARRIERS
    slot_barrier_shades_old: bool = True
    field_barrier_shades_old: bool = True
    empty_value_has_barrier: bool = True
    scanned_slot_has_barrier: bool = True
    full_new_shades: bool = False

    # Stamps and births.
    first_cycle: int = 0
    is_marked: Callable[[int, int], bool] = operator.eq
    birth_stamp: Mapping[Phase, int] = field(default_factory=dict)
    born_grey: bool = False

    # Roots.
    roots: Sequence[int] = range(ROOT_SLOTS)
    root_cost: int = 2
    empty_root_cost: int = 2
    scans_ended_roots: bool = True

    # Marking.
    shade_resolves: bool = True
    marks_when_shaded: bool = True
    grey_is_queue: bool = True
    scanned: Callable[[Sequence[int]], Sequence[int]] = references_in_order
    scanned_roles: frozenset[Role] = frozenset(Role)
    writes_back: bool = True
    mark_base: int = 1
    mark_words: Callable[[int, Sequence[int]], int] = references_alone

    # Sweep.
    empty_slot_cost: int = 1
    swept_free_page_cost: int = 1
    first_swept_page: int = 0
    last_page_is_swept: bool = True
    last_slot_is_swept: bool = True
    sweep_frees_forwarders: bool = True
    empty_page_is_freed: bool = True
    page_is_freed_at_once: bool = False
    judges_first: bool = False
    judges_by_kept_blocks: bool = False
    is_few: Callable[[int, int], bool] = is_quarter
    needs_denser: bool = True
    denser_is_lower: bool = True
    denser_is_of_class: bool = True
    denser_has_room: bool = False
    flags_are_taken_away: bool = True

    # Defragmentation.
    passed_page_cost: int = 1
    passed_slot_cost: int = 1
    move_tiers: tuple[Tier, ...] = (Tier.DENSE,)
    moves_up: bool = True
    moved_roles: frozenset[Role] = frozenset(Role)
    stuck_block_ends_phase: bool = False
    move_base: int = 1
    move_words: Callable[[int, int], int] = class_alone
    slots_charge: int = 144
    each_move_is_charged: bool = False
    charge_is_by_cycle: bool = False
    forwarded_slots: Sequence[int] = range(ROOT_SLOTS)
    forwards_at_end: bool = False
    move_leaves_forwarder: bool = True
    end_frees_forwarders: bool = False
    get_resolves: bool = True
    spine_resolves: bool = True
    middle_resolves: bool = True

    # Quanta.
    fits: Callable[[int, int], bool] = operator.le
    is_low: Callable[[int, int], bool] = operator.le
    trigger_looks_back: bool = False
    start_waits: bool = True
    start_is_kept: bool = True
    askings_add_up: bool = False
    trigger_forgets_start: bool = True
    start_is_forgotten: bool = True
    starting_quantum_works: bool = True
    one_cycle_a_quantum: bool = True
    phases_follow: bool = True
    phase_change_cost: int = 0
    rest_is_dropped: bool = True

    # The scheduler.
    is_due: Callable[[int, int], bool] = operator.ge
    units_past_due_are_dropped: bool = True
    one_quantum_an_event: bool = True
    refused_units: int = 1
    past_last_units: int = 1
    full_new_is_one_unit: bool = True
    new_is_its_blocks: bool = True
    controls_are_units: bool = False
    asked_runs_beside: bool = False
    asked_is_counted: bool = False
    asked_resets_count: bool = False
    idle_quantum_resets_count: bool = True
    due_quantum_waits: bool = False
    full_heap_asks: bool = False
    full_heap_collects: bool = False

    # The trace and its report.
    mutator_comes_first: bool = True
    trace_has_whole_quanta: bool = False
    idle_quanta_are_counted: bool = True
    greatest_is_last: bool = False
    window_more: int = 0
    least_wants_more: int = 0
    least_at_quanta_alone: bool = False
    least_at_commands_alone: bool = False
    window_bits: int = 64
    floor: Callable[[int, int, int], int] = floor
    floor_wants_every: bool = True

    # Stat and dump.
    live_is_marked: bool = False
    live_has_forwarders: bool = False
    cycles_are_ended: bool = False
    dump_shows_forwarders: bool = True
    dump_shows_parts: bool = True

    # The bound of a cycle.
    left_when_idle: bool = False
    left_counts_start: bool = True
    left_counts_on: bool = False
    left_roots: int = ROOT_SLOTS
    left_leaves_out_ended: bool = False
    left_steps_a_page: int = 192
    left_units_a_page: int = 640
    left_lost_units: int = 352
    left_more: int = 1
    left_looks_at_units: bool = True
    left_looks_at_steps: bool = True


RIGHT = Rules()
