"""Judges scripts, several at once if that is asked for, and gives what comes of them in their order."""
from __future__ import annotations

import contextlib
from collections import deque
from collections.abc import Iterable, Iterator, Sequence
from concurrent.futures import Executor, Future, ThreadPoolExecutor
from dataclasses import dataclass, replace

from judging.comparing import Judge, Judgement, ReferenceFailure
from judging.modes import Mode
from judging.programs import Patience, Protocol
from judging.sources import Prepared, Source
from judging.together import examine_together

# So many scripts of one mode a process gets at most. The first gets one alone, so that a program that always hangs, or
# is wrong at once, doesn't take the time of many.
MOST_TOGETHER = 32


@dataclass(frozen=True)
class Outcome:
    """What came of a script."""
    source: Source
    # The rule that the script says it shows, if it says one.
    rule: str
    # None if the script was left out.
    judged: Judgement | None
    # The scripts that its process got before it, if it has a finding only behind them.
    behind: Sequence[str] = ()

    @property
    def has_finding(self) -> bool:
        return self.judged is not None and self.judged.finding is not None


# Scripts of one mode with their places in the order of all.
Batch = Sequence[tuple[int, Source]]


def batches(sources: Iterable[Source], most: int) -> Iterator[Batch]:
    """Scripts that one process gets: those of a file that has several, and else of each mode one, then two, four and so
    on, up to so many."""
    waiting: dict[tuple[Mode, str], list[tuple[int, Source]]] = {}
    sizes: dict[Mode, int] = {}
    for place, source in enumerate(sources):
        batch = waiting.setdefault((source.mode, source.file), [])
        batch.append((place, source))
        size = sizes.get(source.mode, 1)
        if len(batch) == (source.together or size):
            sizes[source.mode] = size if source.together else min(2 * size, most)
            yield waiting.pop((source.mode, source.file))
    yield from waiting.values()


@dataclass(frozen=True)
class Examiner:
    """Judges batches of scripts. If one finding is enough, those behind it in its batch aren't judged."""
    judge: Judge
    is_enough: bool

    def prepared(self, source: Source) -> Prepared:
        try:
            return source.prepare(self.judge)
        except ReferenceFailure as failure:
            raise ReferenceFailure(f"{source.name}: {failure}") from None

    def examine(self, batch: Batch) -> list[tuple[int, Outcome]]:
        judge = self.judge.in_mode(batch[0][1].mode)
        ready = [(place, source, self.prepared(source)) for place, source in batch]
        names = [source.name for _, source, it in ready if it.asked]
        judged = examine_together(judge, [it.asked for _, _, it in ready if it.asked])
        found, count = [], 0
        for place, source, it in ready:
            own = next(judged) if it.asked else None
            behind = names[count - len(own.before):count] if own else ()
            count += own is not None
            found.append((place, Outcome(source, it.rule, own, behind)))
            if self.is_enough and found[-1][1].has_finding:
                break
        return found


def results(pool: Executor, examiner: Examiner, work: Iterable[Batch], ahead: int) -> Iterator[tuple[int, Outcome]]:
    """What comes of batches, in their order, whichever is judged first. At most so many are begun ahead."""
    waiting: deque[Future[list[tuple[int, Outcome]]]] = deque()
    try:
        for batch in work:
            waiting.append(pool.submit(examiner.examine, batch))
            if len(waiting) == ahead:
                yield from waiting.popleft().result()
        while waiting:
            yield from waiting.popleft().result()
    finally:
        examiner.judge.patience.call_off()
        for later in waiting:
            later.cancel()


def in_order(judged: Iterable[tuple[int, Outcome]]) -> Iterator[Outcome]:
    """What came of scripts, by their places."""
    early: dict[int, Outcome] = {}
    next_place = 0
    for place, outcome in judged:
        early[place] = outcome
        while next_place in early:
            yield early.pop(next_place)
            next_place += 1


def outcomes(judge: Judge, sources: Iterable[Source], jobs: int, is_enough: bool) -> Iterator[Outcome]:
    """What comes of each script, in their order. When this is closed, the scripts behind are called off."""
    examiner = Examiner(replace(judge, patience=Patience()), is_enough)
    work = batches(sources, MOST_TOGETHER if judge.protocol is Protocol.MANY else 1)
    with ThreadPoolExecutor(jobs) as pool, contextlib.closing(results(pool, examiner, work, 2 * jobs)) as judged:
        yield from in_order(judged)
