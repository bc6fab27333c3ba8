"""Tests of scripts with answers in folders, of exit statuses, and of histories."""
from __future__ import annotations

import subprocess

from judge_tests.bench import JUDGE, PYTHON, TOP, JudgeCase
from judge_tests.faults import C_FAULTS
from judging.comparing import Kind


class Conformance(JudgeCase):
    """Scripts with answers, in a folder."""

    ANY = """# rule: r
# catches: c
# mark: any

config 4 209 0 0
a new 0 0 1
# ok
* stat
# free 3 live 1 old 0 phase idle cycle 0
"""

    def folder(self, name: str, **files: str) -> list[str]:
        (self.bench.folder / name / "sub").mkdir(parents=True)
        for file, text in files.items():
            self.bench.write(f"{name}/sub/{file}.script", text)
        return ["--conformance", name, "--seeds", "none"]

    def test_marks(self) -> None:
        words = self.folder("marks", one=self.ANY, two=self.ANY.replace("mark: any", "mark: exact"))
        said = self.finds_nothing(*words, "--", *self.bench.toy("semispace"))
        self.assertIn("scripts: 1, events: 1, compared: replies to sessions, left out without --exact: 1", said)
        said = self.finds_nothing("--exact", *words, "--", *self.own("run"))
        self.assertIn("scripts: 2, events: 4, compared: all replies, left out without --exact: 0", said)
        self.finds(Kind.DIFFERENCE, "--exact", *words, "--", *self.bench.toy("semispace"))

    def test_several_folders(self) -> None:
        words = [*self.folder("these", one=self.ANY), *self.folder("those", one=self.ANY, two=self.ANY)]
        self.assertIn("scripts: 3,", self.finds_nothing(*words, "--", *self.bench.toy("semispace")))

    def test_the_rule_of_a_file(self) -> None:
        """A finding has the rule of the file that it came from, also if it is found again by what was kept. It has none
        if shrinking left nothing of what the file shows."""
        fault = C_FAULTS[0]
        rule = "# rule: A shape is what it was,\n# whatever else is.\n"
        words = self.folder("rules", one=self.ANY.replace("# rule: r\n", rule) + "a shape 0\n# shape 0 1\n")
        for kind, program in ((Kind.DIFFERENCE, self.bench.toy(fault.name, fault.old, fault.new)),
                              (Kind.DEATH, ["sh", "-c", "exit 3"])):
            for options in (words, ["--script", "kept.script"]):
                text = self.finds(kind, *options, "--", *program)
                is_left = kind is Kind.DIFFERENCE
                self.assertEqual(text.startswith("# rule: A shape is what it was, whatever else is.\n"), is_left, text)
                self.assertEqual(text.count("# rule: "), int(is_left))
                self.assertEqual("# manual: " in text, is_left)
                self.bench.write("kept.script", text)

    def test_a_rule_of_moving(self) -> None:
        """It is said of a collector that says of itself that it moves objects, and of no other."""
        words = self.folder("moving", one=self.ANY.replace("rule: r", "rule: After a move r.") + "* quantum\n# spent 0 "
                            "phase idle\na shape 0\n# shape 0 1\n")
        for said, is_apt in (("ok", False), ("moves no", False), ("cycles 1 moves yes", True)):
            command = f"{self.bench.program} run | sed -e 's/shape 0 1/shape 1 0/' -e 's/^spent .*/{said}/'"
            text = self.finds(Kind.DIFFERENCE, *words, "--shrink-runs", "1", "--", "sh", "-c", command)
            self.assertEqual("# rule: After a move r.\n" in text, is_apt, text)

    def test_a_folder_of_exact_scripts_judges_nothing_else(self) -> None:
        words = self.folder("exact", one=self.ANY.replace("mark: any", "mark: exact"))
        self.assertEqual(self.judge(*words, "--", "cat").returncode, 2)

    def test_a_stated_reply_that_is_not_the_reference_s(self) -> None:
        words = self.folder("stated", one=self.ANY.replace("# ok", "# yes"))
        done = self.judge(*words, "--", "cat")
        self.assertEqual((done.returncode, done.stdout), (3, ""))
        self.assertIn("sub/one.script: event 1, `a new 0 0 1`: the script states `yes`, and the reference answers `ok`",
                      done.stderr)

    def test_texts_that_are_no_scripts_with_answers(self) -> None:
        bad = [("mark: any", "mark: some"), ("# mark: any\n", ""), ("# ok\n", ""), ("# ok\n", "# ok\n# or so\n"),
               ("a new 0 0 1", "a new 0 0"), ("a new 0 0 1", "a nwe 0 0 1"), ("a new 0 0 1", "a new 0 0 1\r"),
               ("a new 0 0 1", "a new 0 0 01"), ("config", "a")]
        for number, (old, new) in enumerate(bad):
            words = self.folder(f"bad{number}", one=self.ANY.replace(old, new, 1))
            done = self.judge(*words, "--", "cat")
            self.assertEqual((done.returncode, done.stdout), (2, ""), (old, new))
            self.assertRegex(done.stderr, r"\Ajudge: bad\d/sub/one.script: .*\n\Z")

    def test_the_folder_of_the_repository(self) -> None:
        if not (TOP / "conformance").is_dir():
            self.skipTest("there is none yet")
        self.finds_nothing("--seeds", "none", "--", *self.own("run"))
        self.finds_nothing("--seeds", "none", "--exact", "--protocol", "live", "--", *self.own("live"))


class CommandLine(JudgeCase):
    """Exit statuses, and histories."""

    def test_statuses(self) -> None:
        script = ["--script", "exact.script"]
        cases = [
            (2, []),
            (2, ["--"]),
            (2, script),
            (2, ["--sessions", *script, "--", "cat"]),
            (2, [*script, "--", "./none"]),
            (2, ["--script", "none.script", "--", "cat"]),
            (2, ["--conformance", "none.folder", "--", "cat"]),
            (2, ["--seeds", "none", "--conformance", "none", "--", "cat"]),
            (2, ["--seeds", "7..6", "--conformance", "none", "--", "cat"]),
            (2, ["--seeds", "one", "--", "cat"]),
            (2, ["--jobs", "0", "--", "cat"]),
            (2, ["--seconds", "0", "--", "cat"]),
            (3, [*script, "--keep", "none/finding", "--", "cat"]),
            (3, [*script, "--reference", "./none", "--", "cat"]),
            (3, [*script, "--reference", "false", "--", "cat"]),
            (3, [*script, "--reference", "true", "--", "cat"]),
            (0, ["--help"]),
        ]
        for status, words in cases:
            done = self.judge(*words)
            self.assertEqual(done.returncode, status, (words, done.stdout, done.stderr))
            self.assertEqual(done.stderr == "", status == 0, (words, done.stderr))

    def test_histories(self) -> None:
        self.bench.write("right", "history 1\ns0 new 0 0 1 = ok\n* quantum = yes\ns0 read 0 0 = number 0\n")
        self.bench.write("wrong", "history 1\ns0 new 0 0 1 = ok\ns0 read 0 0 = number 1\n")
        config = ["--", "--pages", "4", "--quantum", "209", "--trigger", "0", "--every", "0"]
        cases = [
            (0, "legal 3\n", ["--history", "right", "--sessions"]),
            (4, "first bad 2\n", ["--history", "wrong", "--sessions"]),
            (4, "first bad 2\n", ["--history", "right", *config]),
            (4, "first bad 2\n", ["--history", "wrong", *config]),
            (1, "refused 10 line 1\n", ["--history", "exact.script", "--sessions"]),
            (2, "", ["--history", "right"]),
            (2, "", ["--history", "none", "--sessions"]),
        ]
        for status, printed, words in cases:
            done = self.judge(*words)
            self.assertEqual((done.returncode, done.stdout), (status, printed), (words, done.stderr))

    def test_a_history_of_standard_input(self) -> None:
        command = [*PYTHON, JUDGE, "--reference", self.bench.program, "--history", "--sessions"]
        done = subprocess.run(command, input="history 1\ns0 end = ok\n", capture_output=True, text=True, check=False)
        self.assertEqual((done.returncode, done.stdout), (0, "legal 1\n"))
