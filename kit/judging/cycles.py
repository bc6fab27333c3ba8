"""How hard a program's collector was tried, by what the program says of its cycles as it answers controls."""
from __future__ import annotations

from collections.abc import Iterator
from dataclasses import dataclass

from judging.comparing import Judgement

# The words that an answer may have, each with another behind it: the cycles that were finished since `config`, the
# commands of sessions since then that came while one was under way, the phase, and whether the collector moves objects.
# Other words are passed over.
CYCLES, WITHIN, PHASE, MOVES = "cycles", "within", "phase", "moves"
IDLE = "idle"
# So many phases are named at most. A program may answer any word.
MOST_PHASES = 16


@dataclass(frozen=True)
class Said:
    """What is said of cycles in the answers to one script, or to several. None of a count that none of them says."""
    # How many scripts there were, and in how many of them something was said.
    scripts: int = 0
    telling: int = 0
    cycles: int | None = None
    within: int | None = None
    phases: frozenset[str] = frozenset()

    def __add__(self, other: Said) -> Said:
        return Said(self.scripts + other.scripts, self.telling + other.telling, plus(self.cycles, other.cycles),
                    plus(self.within, other.within), self.phases | other.phases)

    def lines(self) -> Iterator[str]:
        """What the judge says of it: nothing, if the program says nothing."""
        if not self.telling:
            return
        phases = sorted(self.phases)[:MOST_PHASES]
        said = {"cycles of your collector": self.cycles, "commands within a cycle": self.within,
                "phases": " ".join(phases) or None}
        counts = ", ".join(f"{name}: {value}" for name, value in said.items() if value is not None)
        yield f"{counts}; so it says in {self.telling} of {self.scripts} scripts"
        if self.cycles == 0:
            yield "warning: no cycle came to its end: let your collector work more often"
        elif self.within == 0:
            yield "warning: no command came within a cycle: if your collector works in steps, let them be smaller"


def plus(one: int | None, other: int | None) -> int | None:
    return one if other is None else other + (one or 0)


def words_of(line: str) -> dict[str, str]:
    words = line.split(" ")
    return dict(zip(words[::2], words[1::2]))


def says_moves(judged: Judgement) -> bool:
    """Whether any answer to a control says that objects move."""
    lines = (line for event, line in zip(judged.script.events, judged.yours) if not event.is_command)
    return any(words_of(line).get(MOVES) == "yes" for line in lines)


def number(word: str | None, before: int | None) -> int | None:
    """The number that is said, or what was said before."""
    return int(word) if word is not None and word.isascii() and word.isdigit() and len(word) < 20 else before


def said_in(judged: Judgement) -> Said:
    """What is said in the answers to a script. If it is phases alone, commands count that come behind a control whose
    answer has one that isn't idle, up to the next control."""
    cycles, within, phases, counted, is_under_way = None, None, set(), 0, False
    for event, line in zip(judged.script.events, judged.yours):
        if event.is_command:
            counted += is_under_way
            continue
        words = words_of(line)
        cycles, within = number(words.get(CYCLES), cycles), number(words.get(WITHIN), within)
        is_under_way = words.get(PHASE, IDLE) != IDLE
        if PHASE in words:
            phases.add(words[PHASE])
    if within is None and phases:
        within = counted
    is_telling = cycles is not None or within is not None
    return Said(1, int(is_telling), cycles, within, frozenset(phases))
