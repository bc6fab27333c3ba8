"""Judges scripts that one process gets, one after the other. What it answers is cut by the count of their events."""
from __future__ import annotations

from collections.abc import Iterator, Sequence
from dataclasses import dataclass, replace

from judging.comparing import Asked, Finding, Judge, Judgement, Kind
from judging.programs import WELL, Answer, Ending, Limits
from judging.waiting import LONGER, WHOLE

# What is found at a reply, so that it is known which script has it.
AT_A_REPLY = (Kind.DIFFERENCE, Kind.FULL)


@dataclass(frozen=True)
class Together:
    """What one process answered to several scripts, and a judgement of each up to where it stopped."""
    scripts: Sequence[Asked]
    answer: Answer
    limits: Limits
    judged: Sequence[Judgement]

    @property
    def is_whole(self) -> bool:
        """Whether the process ended well, with a line for each event. Else it isn't sure which line is whose."""
        return self.answer.end == WELL and not self.answer.rest and len(self.answer.lines) == self.limits.lines

    @property
    def is_hung(self) -> bool:
        return self.answer.end.ending is Ending.HUNG

    @property
    def place(self) -> int:
        """That of the first script with a finding."""
        return next(place for place, it in enumerate(self.judged) if it.finding)

    @property
    def suspect(self) -> Judgement:
        return self.judged[self.place]

    @property
    def has_stopped(self) -> bool:
        """Whether the process ended, or hung, in the midst of a script. Then its lines before are those of others."""
        is_cut = self.is_hung or self.answer.end.status != 0
        return is_cut and self.suspect.finding.index < len(self.suspect.right)


def ask_together(judge: Judge, scripts: Sequence[Asked], share: float = WHOLE) -> Together:
    answer, limits = judge.ask(scripts, share)
    return Together(scripts, answer, limits, list(cut(judge, scripts, answer, limits)))


def compare_series(judge: Judge, scripts: Sequence[Asked], share: float = WHOLE) -> Judgement:
    """What is found of several scripts that one process gets, as that of the first that has a finding. If replies may
    have been kept back it is that of the last."""
    together = ask_together(judge, scripts, share)
    found = next((it for it in together.judged if it.finding), None)
    if found is None:
        return replace(together.judged[-1], before=tuple(scripts[:-1]))
    if together.is_whole or found.finding.kind in AT_A_REPLY or together.place == len(scripts) - 1:
        return replace(found, before=tuple(scripts[:together.place]))
    return of_last(scripts, found.finding)


def of_last(scripts: Sequence[Asked], finding: Finding) -> Judgement:
    """A finding of which it isn't known how far the process came, as that of its last script."""
    return Judgement(scripts[-1].script, scripts[-1].right, replace(finding, index=0), before=tuple(scripts[:-1]))


def compare_among(judge: Judge, before: Sequence[Asked], asked: Asked, after: Sequence[Asked],
                  share: float = WHOLE) -> Judgement:
    """Judges a script among others that its process gets. What is found of another is at no event of its own."""
    if not before and not after:
        return judge.compare(asked, share)
    together = ask_together(judge, [*before, asked, *after], share)
    found = next((it for it in together.judged if it.finding), None)
    if found is None or together.place == len(before):
        return found or Judgement(asked.script, asked.right, None)
    return Judgement(asked.script, asked.right, replace(found.finding, index=len(asked.right)))


def cut(judge: Judge, scripts: Sequence[Asked], answer: Answer, limits: Limits) -> Iterator[Judgement]:
    """A judgement of each script by its lines. The last one that has lines has what ended the process too."""
    first = 0
    for number, asked in enumerate(scripts, 1):
        left = answer.lines[first:]
        is_last = number == len(scripts) or len(left) < len(asked.right)
        own = replace(answer, lines=left if is_last else left[:len(asked.right)])
        found = judge.finding(asked, own, limits) if is_last else judge.difference(asked.script, asked.right, own)
        yield Judgement(asked.script, asked.right, found, own.lines)
        if is_last:
            return
        first += len(asked.right)


def examine_together(judge: Judge, scripts: Sequence[Asked]) -> Iterator[Judgement]:
    """A judgement of each script. One process gets all; where one stops, another gets those behind, few at first."""
    first, most = 0, len(scripts)
    while first < len(scripts):
        batch = scripts[first:first + most]
        count = 0
        for judged in examine_batch(judge, batch):
            yield judged
            count += 1
        first, most = first + count, 2 * most if count == len(batch) else 1


def examine_batch(judge: Judge, scripts: Sequence[Asked]) -> Iterator[Judgement]:
    """Judgements by one process, up to where it stopped. What is found counts as the script has it alone."""
    if len(scripts) == 1:
        yield judge.examine(scripts[0])
        return
    at_first = judge.share_at_first(scripts)
    together = ask_together(judge, scripts, at_first)
    if together.is_whole:
        yield from each_confirmed(judge, together)
        return
    alone = judge.examine(scripts[together.place]) if together.has_stopped else None
    if alone and alone.finding:
        yield from (*together.judged[:together.place], alone)
    elif together.is_hung:
        yield from examine_longer(judge, together, max(WHOLE, LONGER * at_first))
    else:
        yield from each_alone(judge, together, together.suspect.finding)


def examine_longer(judge: Judge, hung: Together, share: float) -> Iterator[Judgement]:
    """Judgements by another process, which gets longer than one that seemed to hang. It may only be slow."""
    together = ask_together(judge, hung.scripts, share)
    if together.is_whole:
        yield from each_confirmed(judge, together)
    else:
        yield from each_alone(judge, together, together.suspect.finding.after(hung.suspect.finding))


def each_confirmed(judge: Judge, together: Together) -> Iterator[Judgement]:
    """Judgements of scripts of which it is sure which line is whose."""
    for place, it in enumerate(together.judged):
        yield confirmed(judge, together, place) if it.finding else it


def confirmed(judge: Judge, together: Together, place: int) -> Judgement:
    """What a script has alone, or else what it had behind others."""
    alone = judge.examine(together.scripts[place])
    return alone if alone.finding else replace(together.judged[place], before=tuple(together.scripts[:place]))


def each_alone(judge: Judge, together: Together, suspected: Finding) -> Iterator[Judgement]:
    """What scripts have alone, or else what one of them had behind others. A line too many, one that is missing, or one
    that was kept back as the program ended may be that of any script."""
    judged = [judge.examine(asked) for asked in together.scripts]
    if not any(it.finding for it in judged):
        found = behind_others(judge, together, suspected)
        judged[len(found.before)] = found
    yield from judged


def behind_others(judge: Judge, together: Together, suspected: Finding) -> Judgement:
    """What no script has alone. If those up to the suspect don't have it either, it is said of the last."""
    up_to = together.scripts[:together.place + 1]
    again = compare_series(judge, up_to).finding if len(up_to) > 1 and suspected.kind not in AT_A_REPLY else None
    if suspected.kind in AT_A_REPLY or again and again.is_like(suspected):
        return replace(together.suspect, finding=suspected, before=tuple(up_to[:-1]))
    return of_last(together.scripts, suspected)
