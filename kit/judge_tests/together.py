"""Tests of programs that one process asks several scripts."""
from __future__ import annotations

import re
import subprocess

from judge_tests.bench import PYTHON, JudgeCase
from judge_tests.faults import SOON
from judging.comparing import Kind

# Answers such scripts as are made below, one after the other, and has the fault that is its argument.
ANSWERER = r"""import os, sys, time

fault = sys.argv[1]
with open("processes", "a") as file:
    file.write("x")
scripts = ("\n" + sys.stdin.read()).split("\nconfig ")[1:]
for count, script in enumerate(scripts):
    has_take = " take " in script
    is_kept = any(" take " in earlier for earlier in scripts[:count])
    wrong = {"no": has_take, "third": count == 2, "keep": is_kept and not has_take}
    same = "no" if wrong.get(fault) else "yes"
    replies = [same if " same " in line else "ok" for line in script.rstrip().split("\n")[1:]]
    if fault == "short" and has_take:
        replies.pop()
    elif fault == "long" and has_take:
        replies.append("ok")
    elif fault == "hang" and has_take:
        time.sleep(100)
    elif fault == "slow":
        time.sleep(0.25)
    elif fault == "stop" and has_take:
        sys.exit(3)
    elif fault == "lose" and has_take or fault == "lose all" and is_kept and " same " in script:
        os._exit(3)
    sys.stdout.writelines(reply + "\n" for reply in replies)
if fault == "end":
    sys.exit(3)
"""

TEXT = """config 4 209 0 0
a new 0 0 1
a same 0 0
* quantum
a post 3 0
"""
NAMES = ("one", "two", "three", "four", "five", "six", "seven")
# The scripts that have what most faults need.
TAKING = ("three", "five", "six")
# Faults, and the scripts that have each alone.
FAULTS = {"no": TAKING, "short": TAKING, "long": TAKING, "stop": TAKING, "lose": TAKING, "end": NAMES}


class Together(JudgeCase):
    """By `--protocol many` the same is found as by `run`, and what a process keeps from one script to the next."""

    def words(self, fault: str, *options: str) -> list[str]:
        self.bench.write("answerer.py", ANSWERER)
        (self.bench.folder / "processes").unlink(missing_ok=True)
        scripts = []
        for name in NAMES:
            change = "a take 1 3\na post 3 0\n" if name in TAKING else ""
            path = self.bench.write(f"{name}.script", TEXT.replace("a post 3 0\n", "a post 3 0\n" + change))
            scripts += ["--script", path.name]
        return [*scripts, *options, "--", *PYTHON, "answerer.py", fault]

    def processes(self) -> int:
        return len((self.bench.folder / "processes").read_text())

    def compare(self, fault: str) -> None:
        """The scripts with findings are those that have them one by one, and so is all that is said of them."""
        listed = ["--tap", "--shrink-runs", "2"]
        one_by_one = self.judge(*self.words(fault, *listed)).stdout
        self.assertEqual(tuple(re.findall(r"(?m)^not ok \d+ - (\w+)", one_by_one)), FAULTS[fault], one_by_one)
        self.assertEqual(self.judge(*self.words(fault, "--protocol", "many", *listed)).stdout, one_by_one)

    def test_a_hang_in_the_midst(self) -> None:
        words = self.words("hang", "--tap", "--shrink-runs", "1", *SOON, "--protocol", "many")
        done = self.judge(*words[:6], *words[2 * len(NAMES):])
        self.assertEqual(re.findall(r"(?m)^((?:not )?ok) ", done.stdout), ["ok", "ok", "not ok"])
        self.assertIn("\n    # yours: no reply within 3 s\n", done.stdout)

    def test_scripts_that_are_slow_together(self) -> None:
        """Each has its time, though four of them take longer than one may."""
        self.finds_nothing(*self.words("slow", *SOON, "--protocol", "many"))

    def test_processes_get_several_scripts(self) -> None:
        for jobs in ("1", "3"):
            said = self.finds_nothing(*self.words("none", "--protocol", "many", "--jobs", jobs))
            self.assertIn("scripts: 7, events: 34,", said)
            self.assertEqual(self.processes(), 3)

    def test_a_process_is_of_one_mode(self) -> None:
        words = self.words("{}", "--protocol", "many", "--mode", "no", "--mode", "none")
        text = self.finds(Kind.DIFFERENCE, *words)
        self.assertIn("\n# mode: no\n# from: three.script, ", text)

    def test_what_comes_only_behind_others(self) -> None:
        done = self.judge(*self.words("third", "--protocol", "many"))
        self.assertEqual((done.returncode, done.stderr), (1, ""))
        self.assertIn("\n# note: found only behind 2 scripts, four.script to five.script, in one process, and not "
                      "alone: ", self.kept())
        self.assertIn("\n# from: six.script, 6 events, by ", self.kept())
        self.assertTrue(self.kept().endswith("\n\nconfig 1 209 0 0\n\nconfig 1 209 0 0\n\nconfig 1 209 0 0\n\n# here\n"
                                             "a same 0 0\n# yes\n"), self.kept())

    def again(self, fault: str, *words: str) -> subprocess.CompletedProcess:
        return self.judge("--conformance", "none", "--seeds", "none", *words, "--", *PYTHON, "answerer.py", fault)

    def test_scripts_that_nothing_needs_are_dropped(self) -> None:
        """What is left of several is found again in one process, by the file that is kept, and in a folder of such."""
        for fault, kind in (("keep", Kind.DIFFERENCE), ("lose all", Kind.DEATH)):
            done = self.judge(*self.words(fault, "--protocol", "many"))
            self.assertEqual((done.returncode, done.stderr), (1, ""))
            kept = self.kept()
            self.assertIn(f"\n# catches: {kind.value} in script 2, at event 1 of 1, `a same 0 0`\n", "\n" + kept)
            self.assertRegex(kept, r"\n\nconfig \d 209 0 0\na take \d+ \d+\n# ok\n"
                                   r"\nconfig \d 209 0 0\n\n# here\na same 0 0\n")
            (self.bench.folder / "several").mkdir(exist_ok=True)
            self.bench.write("several/kept.script", kept)
            for words in (["--script", "several/kept.script"], ["--conformance", "several"]):
                self.assertEqual(self.again(fault, *words, "--protocol", "many").returncode, 1)
                self.assertIn("script 1, in one process", self.kept())
                self.assertEqual(self.again("none", *words, "--protocol", "many").returncode, 0)
            self.assertEqual(self.again(fault, "--script", "several/kept.script").returncode, 2)

    def test_one_that_hangs_at_once_ends_soon(self) -> None:
        done = self.judge("--protocol", "many", "--seeds", "none", *SOON, "--shrink-runs", "1", "--", "sleep", "100")
        self.assertIn("\n# catches: a hang ", done.stdout)


def add_tests() -> None:
    """Makes a test of each fault."""
    for fault in FAULTS:
        setattr(Together, f"test_as_one_by_one_{fault}", lambda case, fault=fault: case.compare(fault))


add_tests()
