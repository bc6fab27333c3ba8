"""Tests of `--threads`: by programs that log what a run answers, and of the search for an order alone."""
from __future__ import annotations

import unittest

from judge_tests.bench import PYTHON, JudgeCase
from judge_tests.faults import SOON
from judging.logs import BadLog, read_log, require_commands
from judging.ordering import Found, Stopped, Undecided, find_order
from judging.scripts import read_script

# Logs what the program in its last words answers, each command beside some of others, with a fault: its first word.
LOGGER = r"""import subprocess, sys, time

fault, program = sys.argv[1], sys.argv[2:]
text = sys.stdin.read()
replies = subprocess.run(program, input=text, capture_output=True, text=True).stdout.splitlines()
lines, numbers = [], {}
for place, (event, reply) in enumerate(zip(text.splitlines()[1:], replies)):
    begin = 10 * place
    name, command = event.split(" ", 1)
    who = numbers.setdefault(name, len(numbers))
    if fault == "spoilt" and reply.startswith("number"):
        reply = "number 7"
    if fault == "late" and command == "write 0 0 5":
        begin = 1000000
    lines.append(f"{begin} {begin + 25} s{who} {command} = {reply}")
if fault == "short":
    lines.pop()
if fault == "untimed":
    lines[0] = lines[0].partition(" ")[2]
if fault == "dies":
    sys.exit(3)
if fault == "hangs":
    time.sleep(100)
print("log 1", *lines, sep="\n")
"""

SCRIPT = """config 4 209 0 0
s0 new 0 1 1
s0 post 0 0
s1 take 0 0
s0 write 0 0 5
s1 read 0 0
s1 put 0 0 0
s0 get 1 0 0
s0 same 0 1
"""

# Of two sessions one takes what the other posts, and reads the number that it writes.
LEGAL = """log 1
1 2 s0 new 0 0 1 = ok
3 4 s0 post 0 0 = ok
5 8 s0 write 0 0 5 = ok
3 9 s1 take 0 0 = ok
10 11 s1 read 0 0 = number 5
"""


class Threads(JudgeCase):
    """A log that has an order passes, and any other is a finding."""

    def words(self, fault: str, *options: str) -> list[str]:
        self.bench.write("logger.py", LOGGER)
        self.bench.write("threads.script", SCRIPT)
        return ["--threads", "--script", "threads.script", *options, "--", *PYTHON, "logger.py", fault, *self.own("run")]

    def test_a_log_that_has_an_order(self) -> None:
        done = self.judge(*self.words("none"))
        self.assertEqual((done.returncode, done.stderr), (0, ""), done.stdout)
        self.assertEqual(done.stdout, "judge: nothing was found; logs: 1, commands: 8, neighbours that overlap: 4, "
                                      "undecided: 0\n")

    def finds_in_log(self, fault: str, *said: str) -> None:
        done = self.judge(*self.words(fault, "--shrink-seconds", "0.1"))
        self.assertEqual((done.returncode, done.stderr), (1, ""), done.stdout)
        for pattern in said:
            self.assertRegex(done.stdout, pattern)

    def test_a_reply_that_no_order_has(self) -> None:
        self.finds_in_log("spoilt", "no order of [4-8] commands is right", "s1 read 0 0 = number 7`, and right is `number [05]`")

    def test_a_command_that_began_too_late(self) -> None:
        self.finds_in_log("late", "no order of [4-8] commands is right")

    def test_a_log_without_a_command(self) -> None:
        self.finds_in_log("short", "session s[01] was asked [1-5] commands, and logged [0-4]")

    def test_a_line_without_a_time(self) -> None:
        self.finds_in_log("untimed", "is no line `BEGIN END sN COMMAND = REPLY`")

    def test_a_program_that_stops(self) -> None:
        self.finds_in_log("dies", "the program ended with status 3")

    def test_a_program_that_hangs(self) -> None:
        done = self.judge(*self.words("hangs", *SOON, "--shrink-seconds", "0.1"))
        self.assertEqual((done.returncode, done.stderr), (1, ""), done.stdout)
        self.assertIn("judge: no end within 0.6 s, and asked again no end within 3 s\n", done.stdout)


class Orders(unittest.TestCase):
    """The search alone."""

    def find(self, text: str, most_states: int = 1000) -> object:
        return find_order(read_log(text.splitlines()), most_states)

    def test_an_order_that_is_not_that_of_the_beginnings(self) -> None:
        found = self.find(LEGAL)
        self.assertIsInstance(found, Found)
        self.assertEqual([command.event.word for command in found.order][-1], "read")

    def test_what_stops_a_log(self) -> None:
        found = self.find(LEGAL.replace("5 8 s0 write", "12 13 s0 write"))
        self.assertIsInstance(found, Stopped)
        self.assertEqual([(command.event.word, right) for command, right in found.next], [("read", "number 0")])
        self.assertEqual(len(found.beginning), 3)

    def test_a_session_that_goes_back_in_time(self) -> None:
        self.assertIsInstance(self.find("log 1\n5 6 s0 new 0 1 1 = ok\n1 2 s0 shape 0 = shape 1 1\n"), Stopped)

    def test_a_full_heap_makes_nothing(self) -> None:
        self.assertIsInstance(self.find("log 1\n1 2 s0 new 0 1 1 = refused 5 heap full\n3 4 s0 shape 0 = refused 2 null\n"), Found)
        self.assertIsInstance(self.find("log 1\n1 2 s0 new 16 1 1 = refused 5 heap full\n"), Stopped)

    def test_states_are_bounded(self) -> None:
        writes = "".join(f"3 4 s{who} take 0 0 = ok\n5 6 s{who} write 0 0 {who} = ok\n" for who in range(1, 8))
        text = f"log 1\n1 1 s0 new 0 0 1 = ok\n2 2 s0 post 0 0 = ok\n7 8 s0 read 0 0 = number 99\n{writes}"
        self.assertIsInstance(self.find(text, 3), Undecided)
        self.assertIsInstance(self.find(text), Stopped)

    def test_a_log_of_another_script(self) -> None:
        with self.assertRaisesRegex(BadLog, "session s1 was asked 4 commands, and logged 2"):
            require_commands(read_log(LEGAL.replace("new 0 0 1", "new 0 1 1").splitlines()), read_script(
                "config 4 209 0 0\ns0 new 0 1 1\ns0 post 0 0\ns0 write 0 0 5\n" + "s1 take 0 0\ns1 read 0 0\n" * 2))
