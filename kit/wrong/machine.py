"""The sessions and their collector with the scheduler and the trace: a machine that answers events one by one."""
from __future__ import annotations

from collections.abc import Callable
from dataclasses import dataclass

from heap import PLACES, Block, Heap
from letters import COLLECTOR, MUTATOR, Trace
from rules import SESSION_SLOTS, Phase, Refusal, Rules
from sessions import Call, Sessions, own


@dataclass(frozen=True)
class Config:
    """The four numbers of a configuration."""
    pages: int
    quantum: int
    trigger: int
    every: int


@dataclass(frozen=True)
class Event:
    """A command of a session, or a control, whose name is `*`."""
    name: str
    word: str
    numbers: tuple[int, ...]


class Machine:
    """A machine by some rules."""

    def __init__(self, rules: Rules, config: Config) -> None:
        self.rules = rules
        self.config = config
        self.heap = Heap(rules, config.pages)
        self.sessions = Sessions(rules, self.heap)
        self.collector = self.sessions.collector
        self.trace = Trace(rules)
        # The units of the mutator since the last quantum, and whether a quantum that was due waits for a command.
        self.units = 0
        self.is_quantum_owed = False
        self.controls: dict[str, Callable[..., str]] = {
            "start": self._start, "quantum": self._asked_quantum, "stat": self._stat, "dump": self._dump,
            "report": self._report, "left": self._left,
        }

    def answer(self, event: Event) -> str:
        """Does an event, and gives its reply."""
        if event.name == "*":
            reply = self.controls[event.word](*event.numbers)
            if self.rules.controls_are_units:
                self._pass(1)
            return reply
        if self.is_quantum_owed:
            self.is_quantum_owed = False
            self._quantum()
        is_known = event.name in self.sessions.names
        call = Call(self.sessions.number_of(event.name), event.word, event.numbers)
        refusal = self._refusal(call)
        if refusal is None:
            done = self.sessions.do(call)
            self._pass(done.blocks if self.rules.new_is_its_blocks else 1)
            return done.reply
        if not is_known and not self.rules.refused_names_count:
            self.sessions.forget(event.name)
        if refusal is Refusal.NO_FIELD and call.word == "get" and self.rules.refused_get_empties_slot:
            self.sessions.slots[own(call.who, call.numbers[0])] = None
        self._pass(self._units_of_refused(call, refusal))
        return refusal.reply()

    # Units and the scheduler.

    def _refusal(self, call: Call) -> Refusal | None:
        refusal = self.sessions.refusal(call)
        if refusal is not Refusal.HEAP_FULL:
            if refusal is Refusal.TOO_LARGE and self.rules.too_large_is_full:
                return Refusal.HEAP_FULL
            return refusal
        if self.rules.full_heap_asks:
            self.collector.ask()
        if self.rules.full_heap_collects:
            self._quantum()
            refusal = self.sessions.refusal(call)
        if self.rules.full_new_shades and self.collector.phase is Phase.ROOTS:
            self.sessions.shade_slot(own(call.who, call.numbers[0]))
        if self.rules.full_new_empties_slot:
            self.sessions.slots[own(call.who, call.numbers[0])] = None
        self.sessions.births += self.rules.full_new_takes_birth
        return refusal

    def _units_of_refused(self, call: Call, refusal: Refusal) -> int:
        if refusal is Refusal.HEAP_FULL and not self.rules.full_new_is_one_unit:
            return len(self.heap.shapes.parts(*call.numbers[1:]))
        return self.rules.past_last_units if refusal is Refusal.TOO_MANY else self.rules.refused_units

    def _pass(self, units: int) -> None:
        """Counts units of the mutator, and runs the quantum that they make due."""
        self.units += units
        if self.rules.mutator_comes_first:
            self.trace.add(MUTATOR, units)
        if self._is_due():
            self._scheduled_quantum()
        if not self.rules.mutator_comes_first:
            self.trace.add(MUTATOR, units)

    def _is_due(self) -> bool:
        return self.config.every > 0 and self.rules.is_due(self.units, self.config.every)

    def _scheduled_quantum(self) -> None:
        if self.rules.due_quantum_waits:
            self.units, self.is_quantum_owed = 0, True
            return
        spent = self._quantum()
        if spent == 0 and not self.rules.idle_quantum_resets_count:
            return
        self.units = 0 if self.rules.units_past_due_are_dropped else self.units - self.config.every
        if not self.rules.one_quantum_an_event and self._is_due():
            self._scheduled_quantum()

    def _quantum(self) -> int:
        spent = self.collector.quantum(self.config.quantum, self.config.trigger)
        self.trace.add(COLLECTOR, self.config.quantum if spent and self.rules.trace_has_whole_quanta else spent)
        self.trace.add_quantum(spent)
        return spent

    # Controls.

    def _start(self) -> str:
        self.collector.ask()
        return "ok"

    def _asked_quantum(self) -> str:
        spent = 0
        if self.config.every == 0 or self.rules.asked_runs_beside:
            spent = self._quantum()
        elif self.rules.asked_is_counted:
            self.trace.add_quantum(0)
        if self.rules.asked_resets_count:
            self.units = 0
        return f"spent {spent} phase {self.collector.phase.value}"

    def _stat(self) -> str:
        blocks = list(self.heap.blocks())
        old = sum(block.forward is not None for block in blocks)
        live = len(blocks) - (0 if self.rules.live_has_forwarders else old)
        if self.rules.live_is_marked:
            live = sum(block.forward is None and self.collector.is_marked(block) for block in blocks)
        cycles = self.collector.ended_cycles if self.rules.cycles_are_ended else self.collector.cycle
        phase = self.collector.phase.value
        return f"free {self.heap.free_pages()} live {live} old {old} phase {phase} cycle {cycles}"

    def _dump(self) -> str:
        words = ["dump"]
        for number, page in self.heap.used_pages():
            words += [f"P{number}", f"C{page.size}", "+" if page.is_flagged else "-"]
            words += [f"{slot}{self._shown(block)}" for slot, block in sorted(page.blocks.items())]
        return " ".join(words)

    def _shown(self, block: Block) -> str:
        if block.forward is None or not self.rules.dump_shows_forwarders:
            return f"={block.birth}.{block.part if self.rules.dump_shows_parts else 0}"
        page, slot = divmod(block.forward, PLACES)
        return f">{page}.{slot}"

    def _report(self, window: int) -> str:
        window &= (1 << self.rules.window_bits) - 1
        least = self.trace.least(window + self.rules.window_more)
        floor = None
        if self.config.every or not self.rules.floor_wants_every:
            floor = self.rules.floor(self.config.every, self.config.quantum, window)
        mutator, collector = self.trace.count(MUTATOR), self.trace.count(COLLECTOR)
        return (f"mutator {mutator} collector {collector} quanta {self.trace.quanta} greatest {self.trace.greatest} "
                f"window {window} least {or_none(least)} floor {or_none(floor)}")

    def _left(self) -> str:
        if self.collector.phase is Phase.IDLE and not self.rules.left_when_idle:
            return "left 0"
        return f"left {self._bound() - self.collector.quanta + (0 if self.rules.left_counts_start else 1)}"

    def _bound(self) -> int:
        """The most quanta that a cycle may have."""
        rules, pages = self.rules, self.config.pages
        ended = SESSION_SLOTS * len(self.sessions.ended) if rules.left_leaves_out_ended else 0
        roots = rules.left_roots - ended
        steps = roots + rules.left_steps_a_page * pages
        if self.config.quantum <= rules.left_lost_units or not rules.left_looks_at_units:
            return steps
        units = (2 * roots + rules.left_units_a_page * pages) // (self.config.quantum - rules.left_lost_units)
        quanta = units + rules.left_more
        return min(steps, quanta) if rules.left_looks_at_steps else quanta


def or_none(number: int | None) -> str:
    return "none" if number is None else str(number)
