"""Judges scripts in their order, and tells what comes of them: on the terminal, and in listings."""
from __future__ import annotations

import argparse
import contextlib
import sys
from collections import defaultdict
from collections.abc import Iterator

from judging.comparing import Judge
from judging.cycles import Said, said_in
from judging.findings import Findings, Found, unshrunk
from judging.listings import Entry, JUnit, Listing, Tap
from judging.options import Usage
from judging.outcomes import Outcome, outcomes
from judging.reporting import shown
from judging.seen import Seen, seen_in
from judging.shrinking import Course
from judging.sources import Sources


class Progress:
    """What is being done, on standard error: one line that is written over on a terminal, else a line each."""

    def __init__(self, is_wanted: bool) -> None:
        self.is_terminal = sys.stderr.isatty()
        self.is_wanted = is_wanted or self.is_terminal

    def say(self, text: str) -> None:
        if self.is_wanted:
            sys.stderr.write(f"\r\033[Kjudge: {text}" if self.is_terminal else f"judge: {text}\n")
            sys.stderr.flush()

    def clear(self) -> None:
        if self.is_terminal:
            sys.stderr.write("\r\033[K")
            sys.stderr.flush()


class Tally:
    """What was judged, and what of it was asked."""

    def __init__(self) -> None:
        self.scripts, self.events, self.left_out, self.seen = 0, 0, 0, Seen()
        # What the program said in each mode.
        self.said: defaultdict[str, Said] = defaultdict(Said)

    def add(self, outcome: Outcome) -> None:
        judged = outcome.judged
        if judged is None:
            self.left_out += 1
            return
        self.scripts, self.events = self.scripts + 1, self.events + len(judged.script.events)
        self.seen += seen_in(judged)
        self.said[outcome.source.mode.name] += said_in(judged)

    def lines(self, is_exact: bool) -> Iterator[str]:
        yield (f"nothing was found; scripts: {self.scripts}, events: {self.events}, compared: "
               f"{'all replies' if is_exact else 'replies to sessions'}, left out without --exact: {self.left_out}")
        yield self.seen.text()
        has_modes = len(self.said) > 1
        if has_modes:
            yield "scripts by mode: " + ", ".join(f"{said.scripts} of `{name}`" for name, said in self.said.items())
        for name, said in self.said.items() if not is_exact else ():
            yield from (f"mode `{name}`: {line}" if has_modes else line for line in said.lines())


def listings_of(options: argparse.Namespace) -> list[Listing]:
    return [*([JUnit(options.junit)] if options.junit else []), *([Tap()] if options.tap else [])]


class Teller:
    """Judges scripts up to the last finding that is wanted. Once there is one it counts, also if the judge is
    stopped."""

    def __init__(self, options: argparse.Namespace, judge: Judge, sources: Sources) -> None:
        self.options, self.judge, self.sources = options, judge, sources
        self.progress, self.tally, self.findings = Progress(options.progress), Tally(), Findings(options, judge)
        self.listings = listings_of(options)
        # Whether all scripts are judged, whatever is found.
        self.is_whole = bool(self.listings) and options.findings is None
        self.is_stopped = False

    def judge_all(self) -> bool:
        """Whether there is a finding."""
        try:
            self.judge_scripts()
            self.end()
        except KeyboardInterrupt:
            self.bail("stopped")
            if not self.findings.groups:
                raise
            self.print(f"stopped; the finding is kept in {', '.join(self.findings.kept())}")
        except Exception as error:
            self.bail(str(error))
            raise
        return bool(self.findings.groups)

    def judge_scripts(self) -> None:
        is_single = self.findings.most == 1 and not self.is_whole
        with contextlib.closing(outcomes(self.judge, self.sources, self.options.jobs, is_single)) as judged:
            for outcome in judged:
                found = self.count(outcome)
                if self.findings.is_enough and not self.is_whole:
                    break
                self.tell(outcome, found)
                if self.is_stopped:
                    return
            else:
                return
        # By now the scripts behind it are called off.
        self.tell(outcome, found)

    def count(self, outcome: Outcome) -> Found | None:
        """Counts a script. Gives its finding if that is to be kept, and by then it is kept as it is."""
        self.tally.add(outcome)
        done = self.tally.scripts + self.tally.left_out
        self.progress.say(f"{done} of {len(self.sources)} scripts, {outcome.source.title}")
        return self.findings.add(outcome) if outcome.has_finding else None

    def tell(self, outcome: Outcome, found: Found | None) -> None:
        """Says what came of a script. A finding that is kept is shrunk first."""
        report = None
        if found:
            report = found.shrink(self.progress.say)
            self.progress.clear()
            self.is_stopped = found.shrunk.course is Course.STOPPED
            if not self.options.tap:
                print(f"judge: {report.summary()}\n{report.printed()}judge: kept in {found.path}", flush=True)
        elif outcome.has_finding and self.listings:
            report = unshrunk(outcome, self.judge)
        entry = Entry(outcome.source.title, outcome.judged is None, report, str(found.path) if found else "")
        for listing in self.listings:
            listing.add(entry)

    def end(self) -> None:
        self.progress.clear()
        if self.tally.scripts == 0:
            raise Usage("there is no script to judge by")
        if not self.findings.groups:
            self.print(*self.tally.lines(self.judge.is_exact))
        elif self.findings.most > 1 or self.is_whole:
            self.print(*self.findings.lines())
        if self.is_stopped:
            self.bail("stopped")
            return
        for listing in self.listings:
            listing.end()

    def bail(self, why: str) -> None:
        for listing in self.listings:
            listing.bail(why)

    def print(self, *lines: str) -> None:
        """What is no line of a listing is a comment in it."""
        for line in lines:
            print(f"{'# ' if self.options.tap else ''}judge: {shown(line)}", flush=True)
