"""Tests of parts of the judge: what it quotes of the manual, and what it counts."""
from __future__ import annotations

import unittest

from judge_tests.bench import TOP
from judging.comparing import Finding, Judge, Judgement, Kind, Reference
from judging.manual import EVENTS, ORDERS, Manual, Rule, control_rules, rules_of
from judging.programs import WELL, Protocol
from judging.scripts import HEAP_FULL, ROLES, read_case, read_event
from judging.seen import Seen, seen_in


class Rules(unittest.TestCase):
    """The manual has each line that a report may quote."""

    def setUp(self) -> None:
        self.manual = Manual(TOP / "docs/MANUAL.md")

    def judge(self, protocol: Protocol) -> Judge:
        return Judge(Reference(["none"]), ("none",), protocol, False, 1)

    def has(self, rule: Rule) -> None:
        quoted = self.manual.quote(rule)
        self.assertIsNotNone(quoted, rule)
        self.assertIn(rule.words, quoted)

    def test_events(self) -> None:
        self.assertEqual(set(EVENTS), set(ROLES))
        for word, rule in EVENTS.items():
            self.has(rule)
            if word in ORDERS:
                self.has(Rule("Commands", ORDERS[word]))

    def test_refusals(self) -> None:
        event = read_event("a get 0 0 0")
        for reply in ("refused 1 bad slot", "refused 2 null", "refused 3 no field", "refused 4 too large", HEAP_FULL,
                      "refused 6 ended", "refused 7 too many sessions"):
            for right, yours in ((reply, "ok"), ("ok", reply)):
                rules = rules_of(Finding(Kind.DIFFERENCE, 0, yours, WELL), event, right, self.judge(Protocol.RUN))
                self.assertGreaterEqual(len(rules), 3)
                for rule in rules:
                    self.has(rule)

    def test_other_kinds(self) -> None:
        event = read_event("a same 0 0")
        for kind in Kind:
            for protocol in Protocol:
                for rule in rules_of(Finding(kind, 0, "no", WELL), event, "yes", self.judge(protocol)):
                    self.has(rule)

    def test_controls(self) -> None:
        replies = {
            "quantum": ("spent 1 phase idle", "spent 2 phase idle"),
            "stat": ("free 1 live 2 old 3 phase idle cycle 4", "free 5 live 6 old 7 phase mark cycle 8"),
            "report": ("mutator 1 collector 2 quanta 3 greatest 4 window 5 least 6 floor 7",
                       "mutator 8 collector 8 quanta 8 greatest 8 window 8 least 8 floor 8"),
            "dump": ("dump P0 C4 - 0=0.0 1>0.0", "dump P1 C5 + 1=1.1 2>1.1"),
            "left": ("left 1", "left 0"),
        }
        for word, (right, yours) in replies.items():
            words, others = right.split(), yours.split()
            for index, (one, other) in enumerate(zip(words, others)):
                if one != other:
                    rules = control_rules(word, words, [*words[:index], other, *words[index + 1:]])
                    self.assertEqual(len(rules), 1, (word, one))
                    self.has(rules[0])
            for rule in control_rules(word, words, ["ok"]):
                self.has(rule)

    def test_a_manual_that_is_not_there(self) -> None:
        self.assertIsNone(Manual(TOP / "docs/NONE").quote(EVENTS["new"]))


class Counts(unittest.TestCase):
    """What the judge says that it saw."""

    LINES = """config 4 209 0 0
a new 0 2 1
# ok
a new 1 0 1
# ok
a put 0 0 1
# ok
a put 0 1 1
# ok
a post 3 0
# ok
* start
# ok
a clear 1
# ok
a put 0 0 1
# ok
a put 0 0 1
# ok
a put 0 2 1
# refused 3 no field
* quantum
# spent 209 phase roots
b take 0 3
# ok
b put 0 1 5
# ok
b get 1 0 1
# ok
b put 1 0 0
# refused 2 null
* quantum
# spent 9 phase idle
b end
# ok
b read 0 0
# refused 6 ended
"""

    def test_counts(self) -> None:
        case = read_case("# mark: any\n\n" + self.LINES)
        seen = seen_in(Judgement(case.script, case.stated, None))
        self.assertEqual(seen, Seen(commands=15, refused=3, starts=1, quanta=2, nulls=2))
        self.assertEqual((seen + seen).text(), "commands of sessions: 30, of these refused: 6, `* start`: 2, "
                         "`* quantum`: 4, null stored over an object: 4")
