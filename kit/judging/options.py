"""The command line of the judge."""
from __future__ import annotations

import argparse
import re
from collections.abc import Callable

from judging.programs import Protocol
from judging.waiting import EVENT_SECONDS, LONGER, SECONDS

# What adds an option to a parser.
Add = Callable[..., argparse.Action]
# What stands for no scripts of a kind.
NONE = "none"
# The profiles that take turns.
TURNS = ("churn", "lists", "trees", "wide", "large", "frag", "refusals", "mixed", "barriers", "comb", "fans", "cycles")
PROFILES = (*TURNS, "race")


class Usage(Exception):
    """The command line asks for what can't be done."""


def seeds(word: str) -> range:
    if word == NONE:
        return range(0)
    found = re.fullmatch(r"([0-9]+)(?:\.\.([0-9]+))?", word)
    if not found:
        raise argparse.ArgumentTypeError(f"{word!r} is neither A..B nor {NONE}")
    first = int(found[1])
    return range(first, int(found[2] or first) + 1)


def count(word: str) -> int:
    if not re.fullmatch(r"[0-9]{1,9}", word) or int(word) == 0:
        raise argparse.ArgumentTypeError(f"{word!r} is no number above 0")
    return int(word)


def some_seconds(word: str) -> float:
    if not re.fullmatch(r"[0-9]{1,6}(\.[0-9]+)?", word):
        raise argparse.ArgumentTypeError(f"{word!r} is no time in seconds")
    return float(word)


def seconds(word: str) -> float:
    if some_seconds(word) == 0:
        raise argparse.ArgumentTypeError(f"{word!r} is no time above 0")
    return float(word)


def parser(description: str) -> argparse.ArgumentParser:
    made = argparse.ArgumentParser(prog="judge", description=description, usage=argparse.SUPPRESS, allow_abbrev=False,
                                   formatter_class=argparse.RawDescriptionHelpFormatter)
    add_judging(made.add_argument_group("how replies are compared").add_argument)
    add_running(made.add_argument_group("how PROGRAM is run").add_argument)
    add_scripts(made.add_argument_group("which scripts").add_argument)
    add_findings(made.add_argument_group("findings").add_argument)
    add_listings(made.add_argument_group("what is written").add_argument)
    add_threads(made.add_argument_group("threads").add_argument)
    add_histories(made.add_argument_group("histories").add_argument)
    return made


def add_judging(add: Add) -> None:
    add("--exact", action="store_true", help="compare all replies: PROGRAM has the very rules of metroheap")
    add("--reference", metavar="CMD", help="metroheap with any words before the subcommand; if it isn't given, the one "
        "that is built or installed beside the judge, else the one in PATH")


def add_running(add: Add) -> None:
    add("--protocol", choices=[protocol.value for protocol in Protocol], default=Protocol.RUN.value,
        help="run: PROGRAM gets the whole script (the default); live: it gets a line when the one before is answered; "
        "many: a process gets several scripts one after the other, and begins anew at each `config`")
    add("--mode", metavar="WORDS", action="append", default=[], help="judge PROGRAM with these words in the place of a "
        "word {}, or behind its own; may be repeated: scripts with answers are asked in each mode, the others in turn")
    add("--seconds", metavar="S", type=seconds, default=SECONDS, help="how long PROGRAM may take for a script "
        f"({SECONDS:g}); it gets {LONGER:g} times as long in a second run, before a hang is a finding")
    add("--event-seconds", metavar="S", type=some_seconds, default=EVENT_SECONDS, help="how much longer for each event "
        f"of it ({EVENT_SECONDS:g})")
    add("--jobs", metavar="N", type=count, default=1, help="how many processes of PROGRAM are asked at once (1)")


def add_scripts(add: Add) -> None:
    add("--conformance", metavar="DIR", action="append", default=[], help="a folder of scripts with answers, or "
        f"{NONE}; may be repeated; if it isn't given, the folder beside the judge")
    add("--seeds", metavar="A..B", type=seeds, help=f"seeds of generated scripts, or {NONE} (1..20)")
    add("--events", metavar="M", type=count, default=10000, help="how many events a generated script has (10000)")
    add("--profile", choices=PROFILES, help="what generated scripts are like; if it isn't given, profiles take turns")
    add("--script", metavar="FILE", action="append", default=[], help="judge this script, and no others but those that "
        "are asked for; may be repeated")


def add_findings(add: Add) -> None:
    add("--findings", metavar="N", type=count, help="go on until there are findings of so many groups (1): of "
        "different rules, or of different kinds at different commands")
    add("--keep", metavar="FILE", default="judge-finding.script", help="where a finding is kept, at once and again "
        "when it is shrunk (judge-finding.script); that of the second group has -2 before the ending, and so on")
    add("--shrink-runs", metavar="R", type=count, default=4000, help="the most runs that shrinking takes (4000)")
    add("--shrink-seconds", metavar="T", type=seconds, default=120.0, help="the longest that shrinking takes (120)")
    add("--repeat", metavar="N", type=count, default=1, help="while shrinking, ask each script up to so many times "
        "until the finding comes (1); above 1, one that comes and goes is shrunk too")


def add_listings(add: Add) -> None:
    add("--tap", action="store_true", help="write a line for each script, by version 13 of TAP, and judge all scripts "
        "if --findings isn't given")
    add("--junit", metavar="FILE", help="write a test case for each script to this file, as JUnit's XML, and judge all "
        "scripts if --findings isn't given")
    add("--progress", action="store_true", help="say on standard error what is done, also if it is no terminal")


def add_threads(add: Add) -> None:
    add("--threads", action="store_true", help="PROGRAM does each session of a script in a thread of its own, and "
        "answers with a log: look for an order of it in which each reply is right")
    add("--most-states", metavar="N", type=count, default=200000, help="after so many states a log is undecided (200000)")


def add_histories(add: Add) -> None:
    add("--history", metavar="FILE", nargs="?", const="-", help="judge a history; without FILE, that of standard input")
    add("--sessions", action="store_true", help="judge it by what its sessions see, whatever collector wrote it")
