"""Makes a script with a finding as small as it gets: fewer events, fewer sessions, lower numbers."""
from __future__ import annotations

import enum
import functools
import itertools
import string
from collections.abc import Callable, Iterator, Mapping, Sequence
from dataclasses import replace

from judging.comparing import Judgement, Kind
from judging.scripts import Event, Role, Script
from judging.trials import Spent, Trials

LEAST_QUANTUM = 209
FIRST_PAGES = (64, 512)
# Longer scripts have too many pairs of events, and too many numbers that are halved.
MOST_EVENTS_OF_PAIRS = 32
# If more events than these are left, they are dropped in another order too, and objects are joined.
FEW_EVENTS = 12
# How many words an object may take beside its fields, the likeliest first.
HEADERS = (2, 1, 4, 3, 0)
# Which number of a `new` it is, and how great it is at most.
COUNT_OF_NUMBERS = 2
MOST_NUMBERS = (1 << 32) - 1
# So many events a script may have to be kept with what was found of it.
MOST_EVENTS_KEPT = 1000
# An event, and which of its numbers.
Place = tuple[int, int]
# What is called with the smallest script so far, and how many runs were made.
Notice = Callable[[Judgement, int], None]


class Course(enum.Enum):
    """How far shrinking came."""
    WHOLE = "nothing more can be dropped or lowered"
    UNDER_WAY = "it goes on"
    SPENT = "it came to its limit"
    STOPPED = "it was stopped"
    LEFT_OUT = "the finding didn't come again"
    SLOW = "smaller scripts were slow, and came to their end"
    UNTRIED = "it wasn't begun"


class Shrinker:
    """Holds the smallest script so far that has a finding like the first one."""

    def __init__(self, trials: Trials, found: Judgement, share: float, notice: Notice) -> None:
        self.trials, self.found, self.share, self.notice = trials, found, share, notice
        self.best = found
        # The smallest script of the other order in which events were dropped.
        self.other: Judgement | None = None
        # What was found of scripts, by their digests. A long one with such a finding is run again if it comes again.
        self.tried: dict[bytes, Judgement | None] = {found.script.digest: found}

    @property
    def script(self) -> Script:
        return self.best.script

    @property
    def smallest(self) -> Judgement:
        judged = (self.other, self.best) if self.other else (self.best,)
        return min(judged, key=lambda it: len(it.script.events))

    @property
    def has_other_config(self) -> bool:
        """Whether other configurations are tried. In a smaller heap a program may stop for that reason alone."""
        return self.trials.goal.kind is Kind.DIFFERENCE

    def examine(self, script: Script) -> Judgement | None:
        """A script's judgement, if it has a finding like the first one."""
        if script.digest in self.tried:
            return self.tried[script.digest]
        judged = self.trials.examine(script, self.share, self.trials.effort.repeat, self.trials.spare)
        if judged is None or len(script.events) <= MOST_EVENTS_KEPT:
            self.tried[script.digest] = judged
        return judged

    def attempt(self, script: Script) -> bool:
        """Takes another script if it has such a finding too. What is behind the finding is cut off.

        Raises Spent once the effort is, also if no run is needed. So each loop ends that tries something in each turn.
        """
        self.trials.require(self.trials.spare)
        judged = None if script.digest == self.script.digest else self.examine(script)
        if judged is None:
            return False
        self.best = judged
        self.notice(self.smallest, self.trials.runs)
        self.attempt(judged.script.prefix(judged.finding.index + 1))
        return True

    def shrink(self) -> Course:
        """Drops the last events first, which leaves in place what the others make. If much is left, begins again with
        the first events, and the smaller script counts."""
        try:
            self.shrink_by(self.drop_backward)
            if len(self.script.events) > FEW_EVENTS:
                self.other = self.best
                self.best = self.found
                self.shrink_by(self.drop_forward)
        except Spent:
            return Course.SPENT
        return Course.WHOLE

    def shrink_by(self, drop_each: Callable[[int], None]) -> None:
        self.cut()
        self.lower_pages()
        count = None
        while count != len(self.script.events):
            count = len(self.script.events)
            self.drop(drop_each)
            self.join_objects()
            self.drop_pairs()
            self.merge_sessions()
            self.rename_sessions()
            self.lower_config()
            self.lower_together()
            self.lower_each()
            self.drop(drop_each)

    def cut(self) -> None:
        """Finds a short prefix. A program that keeps its output back doesn't show how far it came."""
        self.attempt(self.script.prefix(self.trials.goal.index + 1))
        least = 0
        while len(self.script.events) - least > 1:
            middle = (least + len(self.script.events)) // 2
            if not self.attempt(self.script.prefix(middle)):
                least = middle

    def lower_pages(self) -> None:
        """Tries two smaller heaps before all else, since a program may take long for a large one."""
        for pages in FIRST_PAGES:
            is_lower = pages < self.script.config.pages and self.has_other_config
            if is_lower and self.attempt(self.with_pages(pages)):
                return

    def count(self) -> int:
        return len(self.script.events)

    def drop(self, drop_each: Callable[[int], None]) -> None:
        by_halves(self.count, drop_each)

    def drop_forward(self, size: int) -> None:
        """Drops so many events at once, from the first on."""
        first = 0
        while first < len(self.script.events):
            if not self.attempt(self.without(first, first + size)):
                first += size

    def drop_backward(self, size: int) -> None:
        """Drops so many events at once, from the last on."""
        backward(size, self.count, lambda first, end: self.attempt(self.without(first, end)))

    def without(self, first: int, end: int) -> Script:
        events = self.script.events
        return self.script.with_events(events[:first] + events[end:])

    def join_objects(self) -> None:
        """Makes one object of two, where many are made that only take room. What comes behind stays in its place if the
        header has the right size, which differs from collector to collector."""
        headers = list(HEADERS)
        index = 0
        while index < len(self.script.events) > FEW_EVENTS:
            header = next((size for size in headers if self.join_at(index, size)), None)
            if header is None:
                index += 1
            else:
                headers.remove(header)
                headers.insert(0, header)

    def join_at(self, index: int, header: int) -> bool:
        """Leaves out a `new`, and has the one before it, or the one behind, make so much more."""
        events = self.script.events
        if events[index].word != "new":
            return False
        room = sum(events[index].numbers[1:]) + header
        for other in nearest_news(events, index):
            count = self.script.events[other].numbers[-1] + room
            if count > MOST_NUMBERS:
                continue
            larger = self.with_number([(other, COUNT_OF_NUMBERS)], count)
            if self.attempt(larger.with_events(larger.events[:index] + larger.events[index + 1:])):
                return True
        return False

    def drop_pairs(self) -> None:
        """Drops two events of a short script at once, such as those that make up for one another."""
        first = 0
        while first < len(self.script.events) <= MOST_EVENTS_OF_PAIRS:
            events = self.script.events
            seconds = range(first + 1, len(events))
            kept = (events[:first] + events[first + 1:second] + events[second + 1:] for second in seconds)
            if not any(self.attempt(self.script.with_events(some)) for some in kept):
                first += 1

    def merge_sessions(self) -> None:
        """Lets one session do what two did."""
        for name in reversed(self.script.sessions()):
            for other in self.script.sessions():
                if other == name or self.attempt(renamed(self.script, {name: other})):
                    break

    def rename_sessions(self) -> None:
        """Calls the sessions a, b and so on; if that fails, as many of them as it can."""
        names = self.script.sessions()
        if self.attempt(renamed(self.script, dict(zip(names, short_names())))):
            return
        for name, short in zip(names, short_names()):
            if short not in names:
                self.attempt(renamed(self.script, {name: short}))

    def lower(self, value: int, least: int, change: Callable[[int], Script]) -> None:
        """Lowers a number to the least, to the one above it, or as far as halving comes. `change` puts one in place."""
        for low in (least, least + 1):
            if low >= value or self.attempt(change(low)):
                return
        while value - low > 1 and len(self.script.events) <= MOST_EVENTS_OF_PAIRS:
            middle = (low + value) // 2
            if self.attempt(change(middle)):
                value = middle
            else:
                low = middle

    def lower_config(self) -> None:
        """Lowers the numbers of the configuration."""
        if not self.has_other_config:
            return
        self.lower(self.script.config.pages, 1, self.with_pages)
        for name, least in (("every", 0), ("trigger", 0), ("quantum", LEAST_QUANTUM)):
            self.lower(getattr(self.script.config, name), least, functools.partial(self.with_config, name))

    def with_config(self, name: str, value: int) -> Script:
        return replace(self.script, config=replace(self.script.config, **{name: value}))

    def with_pages(self, pages: int) -> Script:
        """The script with another count of pages. There are never fewer than TRIGGER."""
        config = self.script.config
        return replace(self.script, config=replace(config, pages=pages, trigger=min(config.trigger, pages)))

    def lower_together(self) -> None:
        """Gives a slot, or a field, a lower number wherever it stands."""
        for group in groups(self.script):
            for rank, value in enumerate(sorted(group)):
                change = functools.partial(self.with_number, group[value])
                if not any(self.attempt(change(low)) for low in range(min(rank + 1, value))):
                    self.lower(value, rank, change)

    def lower_each(self) -> None:
        """Lowers each number by itself."""
        for index, event in enumerate(self.script.events):
            for position, value in enumerate(event.numbers):
                self.lower(value, 0, functools.partial(self.with_number, [(index, position)]))

    def with_number(self, places: Sequence[Place], value: int) -> Script:
        """The script with a number in so many places. The last of them may be cut off by now."""
        events = list(self.script.events)
        for index, position in places:
            if index < len(events):
                numbers = list(events[index].numbers)
                numbers[position] = value
                events[index] = replace(events[index], numbers=tuple(numbers))
        return self.script.with_events(events)


def by_halves(count: Callable[[], int], drop_each: Callable[[int], None]) -> None:
    """Drops by halves, quarters and so on, down to single ones, until none can be dropped."""
    size = max(1, count() // 2)
    while True:
        before = count()
        drop_each(size)
        if size == 1 and count() == before:
            return
        size = max(1, size // 2)


def backward(size: int, count: Callable[[], int], attempt: Callable[[int, int], object]) -> None:
    """Tries to drop so many at once, from the last on."""
    end = count()
    while end > 0:
        first = max(0, end - size)
        attempt(first, end)
        end = min(first, count())


def nearest_news(events: Sequence[Event], index: int) -> list[int]:
    """Where the last `new` before an event is, and the first one behind it."""
    sides = (range(index - 1, -1, -1), range(index + 1, len(events)))
    found = (next((place for place in side if events[place].word == "new"), None) for side in sides)
    return [place for place in found if place is not None]


def renamed(script: Script, names: Mapping[str, str]) -> Script:
    return script.with_events(replace(event, who=names[event.who]) if event.who in names else event
                              for event in script.events)


def short_names() -> Iterator[str]:
    yield from string.ascii_lowercase
    yield from (f"s{number}" for number in itertools.count())


def groups(script: Script) -> list[dict[int, list[Place]]]:
    """Numbers that mean one thing, with their places: slots of a session, slots of the board, references, numbers."""
    found: dict[tuple[Role, str], dict[int, list[Place]]] = {}
    for index, event in enumerate(script.events):
        for position, (role, value) in enumerate(zip(event.roles(), event.numbers)):
            if role in (Role.COUNT, Role.VALUE):
                continue
            key = (role, event.who if role is Role.SLOT else "")
            found.setdefault(key, {}).setdefault(value, []).append((index, position))
    return list(found.values())
