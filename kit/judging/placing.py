"""In which event a program stopped. One that gets the whole script may keep back replies that it has made."""
from __future__ import annotations

from dataclasses import replace

from judging.comparing import Judge, Judgement, Kind
from judging.programs import Protocol
from judging.together import compare_series
from judging.waiting import SHARE_OF_A_HANG, WHOLE

STOPS = (Kind.HANG, Kind.DEATH)


def is_sure(judged: Judgement, protocol: Protocol) -> bool:
    """Whether a finding is at the event that its replies say."""
    is_at_end = judged.finding.index == len(judged.script.events)
    return protocol is Protocol.LIVE or judged.finding.kind not in STOPS or is_at_end


def likely_place(judged: Judgement, protocol: Protocol) -> int:
    """The event at which to look. If it isn't sure it is the last, without which nothing is found."""
    index, last = judged.finding.index, len(judged.script.events) - 1
    return index if is_sure(judged, protocol) else max(index, last)


def sure_place(judge: Judge, judged: Judgement) -> int | None:
    """The event at which a program stops that gets line by line what it got at once. None if it doesn't stop then, or
    if it may be one that doesn't answer line by line."""
    if is_sure(judged, judge.protocol):
        return judged.finding.index
    is_hang = judged.finding.kind is Kind.HANG
    line_by_line = replace(judge, protocol=Protocol.LIVE)
    scripts = [*judged.before, judged.asked]
    again = compare_series(line_by_line, scripts, WHOLE if is_hang else SHARE_OF_A_HANG)
    is_other = again.finding is None or not again.finding.is_like(judged.finding)
    if is_other or len(again.before) < len(judged.before):
        return None
    is_silent = is_hang and not again.yours and len(judged.right) > 1
    return None if is_silent else again.finding.index
