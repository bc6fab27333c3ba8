"""Whether a finding still shows the rule of the file that it came from, once its script is made smaller."""
from __future__ import annotations

import bisect
import re
from collections.abc import Sequence

from judging.comparing import Judgement, Kind
from judging.cycles import says_moves
from judging.scripts import Event

# Commands that make room for what a file shows.
PASSED_OVER = frozenset(["clear", "start"])
# An object of more fields than these is of more blocks, and of more levels of them.
SIZES = (60, 3600)
# What a rule says of collectors that move objects, and of no others.
OF_MOVING = re.compile(r"\b(moves?|moved|forwarders?|the copy)\b", re.IGNORECASE)


def is_left(found: Judgement, left: Judgement) -> bool:
    """Whether what is left has each kind of command that the file had up to its finding, and as large an object."""
    before = events_up_to_finding(found)
    return kinds(before) <= kinds(left.script.events) and largest(before) <= largest(left.script.events)


def events_up_to_finding(found: Judgement) -> Sequence[Event]:
    """If a program stopped before it gave any reply, it isn't known how far it came."""
    events, finding = found.script.events, found.finding
    is_known = finding.index > 0 or finding.kind is Kind.DIFFERENCE
    return events[:finding.index + 1] if is_known else events


def kinds(events: Sequence[Event]) -> set[str]:
    return {event.word for event in events} - PASSED_OVER


def largest(events: Sequence[Event]) -> int:
    """How many levels of blocks the largest object takes beside the first."""
    sizes = (sum(event.numbers[1:]) for event in events if event.word == "new")
    return bisect.bisect_left(SIZES, max(sizes, default=0))


def is_apt(rule: str, judgements: Sequence[Judgement]) -> bool:
    """Whether a rule is of such a collector. One that moves objects says so as it answers controls."""
    return not OF_MOVING.search(rule) or any(map(says_moves, judgements))
