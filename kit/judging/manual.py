"""Which lines of docs/MANUAL.md say what an event is answered. They are quoted from the page, so they can't drift."""
from __future__ import annotations

import pathlib
import re
from dataclasses import dataclass
from itertools import zip_longest

from judging.comparing import Finding, Judge, Kind
from judging.scripts import HEAP_FULL, Event

SENTENCE_END = re.compile(r"(?<=\.)\s+")
REFUSED = re.compile(r"refused ([1-7]) .*")


@dataclass(frozen=True)
class Rule:
    """A line of the manual: the heading that it stands under, and words that it has."""
    heading: str
    words: str


EVENTS = {
    "new": Rule("new", "`NAME new D R N`"),
    "get": Rule("get and put", "`NAME get D S F`"),
    "put": Rule("get and put", "`NAME put S F V`"),
    "read": Rule("read and write", "`NAME read S I`"),
    "write": Rule("read and write", "`NAME write S I X`"),
    "copy": Rule("copy, clear, same and shape", "`NAME copy D S`"),
    "clear": Rule("copy, clear, same and shape", "`NAME clear D`"),
    "same": Rule("copy, clear, same and shape", "`NAME same A B`"),
    "shape": Rule("copy, clear, same and shape", "`NAME shape S`"),
    "post": Rule("post and take", "`NAME post B S`"),
    "take": Rule("post and take", "`NAME take D B`"),
    "end": Rule("end", "`NAME end`"),
    "start": Rule("start and quantum", "`* start` asks"),
    "quantum": Rule("start and quantum", "`* quantum` runs one quantum"),
    "stat": Rule("stat and dump", "`* stat` answers"),
    "dump": Rule("stat and dump", "`* dump` answers"),
    "report": Rule("report", "`* report W` answers"),
    "left": Rule("left", "`* left` answers"),
}

# The row of each command in the table of what refuses it, in which order.
ORDERS = {
    "new": "| `new D R N` |",
    "get": "| `get D S F` |",
    "put": "| `put S F V` |",
    "read": "| `read S I` |",
    "write": "| `write S I X` |",
    "copy": "| `copy D S`, `clear D` |",
    "clear": "| `copy D S`, `clear D` |",
    "same": "| `same A B` |",
    "shape": "| `shape S` |",
    "post": "| `post B S`, `take D B` |",
    "take": "| `post B S`, `take D B` |",
    "end": "| `end` |",
}

ROOM = Rule("What sessions see", "But a `new` that such a heap answers")
PLAIN_HEAP = Rule("What sessions see", "has to be that of a heap that never collects")
FULL_HEAP = Rule("Objects", "If none exists the heap is full")
PLACEMENT = Rule("Objects", "A part goes into the first of these that exists")
FLAGS = Rule("Cycles and quanta", "A page is flagged if both hold")
MOVES = Rule("Cycles and quanta", "A block of a flagged page moves")
STEPS = Rule("Cycles and quanta", "A quantum takes steps while")
QUANTA_LEFT = Rule("left", "Otherwise it is B less the quanta")


def rules_of(finding: Finding, event: Event | None, right: str, judge: Judge) -> list[Rule]:
    """The rules that a finding has to do with; the first is that of its event. Where no reply is there is no rule."""
    yours = finding.yours
    if finding.kind is Kind.FULL:
        return [ROOM]
    if finding.kind is not Kind.DIFFERENCE or event is None:
        return []
    if not event.is_command:
        return [EVENTS[event.word], *control_rules(event.word, right.split(" "), yours.split(" "))]
    reasons = [reply for reply in (right, yours) if REFUSED.fullmatch(reply)]
    if reasons:
        full = [FULL_HEAP] if HEAP_FULL in reasons else []
        rows = [Rule("Commands", words) for words in (ORDERS[event.word], f"| `{reasons[0]}` |")]
        return [EVENTS[event.word], *rows, *full]
    return [EVENTS[event.word]] if judge.is_exact else [EVENTS[event.word], PLAIN_HEAP]


def control_rules(word: str, right: list[str], yours: list[str]) -> list[Rule]:
    """The rules of the first word in which the replies to a control differ."""
    index = next(index for index, (one, other) in enumerate(zip_longest(right, yours)) if one != other)
    if word == "dump":
        return [dump_rule({*right[index:index + 1], *yours[index:index + 1]})]
    if word == "quantum":
        return [STEPS]
    if word == "left":
        return [QUANTA_LEFT]
    if word in ("stat", "report") and len(right) == len(yours) and index % 2:
        return [Rule(EVENTS[word].heading, f"| `{right[index - 1]}` |")]
    return []


def dump_rule(items: set[str]) -> Rule:
    """What says which items a dump has: flags, forwarders, or where parts go."""
    if items & {"+", "-"}:
        return FLAGS
    return MOVES if any(">" in item for item in items) else PLACEMENT


class Manual:
    """The page, if it is there."""

    def __init__(self, path: pathlib.Path) -> None:
        self.lines = path.read_text(encoding="utf-8").splitlines() if path.is_file() else []

    def quote(self, rule: Rule) -> str | None:
        """The sentence with the rule's words, or the row of a table."""
        for line in self.section(rule.heading):
            if rule.words in line:
                if line.startswith("|"):
                    return line
                return next(part for part in SENTENCE_END.split(line.removeprefix("- ")) if rule.words in part)
        return None

    def section(self, heading: str) -> list[str]:
        """The lines below a heading, up to the next of its level or above."""
        found, level = [], 0
        for line in self.lines:
            title = re.fullmatch(r"(#+) (.*)", line)
            if title and level and len(title[1]) <= level:
                break
            if title and not level and title[2] == heading:
                level = len(title[1])
            if level:
                found.append(line)
        return found
