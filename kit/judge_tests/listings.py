"""Tests of what is told of several findings, and of listings for other programs."""
from __future__ import annotations

import re
import signal
import subprocess
from xml.etree import ElementTree

from judge_tests.bench import JudgeCase
from judging.scripts import read_case

ANY = """# rule: {}
# catches: c
# mark: any

config 4 209 0 0
a new 0 0 1
# ok
a same 0 0
# yes
"""


class Several(JudgeCase):
    """Findings of several groups, by a program with two faults."""

    def setUp(self) -> None:
        self.bench.write("same.script", "config 4 209 0 0\na new 0 0 1\na same 0 0\n")
        self.bench.write("read.script", "config 4 209 0 0\na new 0 0 1\na read 0 0\n")
        self.bench.write("good.script", "config 4 209 0 0\na new 0 0 1\n")

    def words(self, *options: str) -> list[str]:
        names = ("same", "good", "same", "read", "same")
        scripts = [word for name in names for word in ("--script", f"{name}.script")]
        change = "sed -e 's/^yes/no/' -e 's/^number 0/number 1/'"
        return [*scripts, *options, "--", "sh", "-c", f"{self.bench.program} run | {change}"]

    def stated(self) -> list[str]:
        """The options for a folder of scripts with the rules 1, 2 and 1, and one that is exact."""
        folder = self.bench.folder / "ruled"
        folder.mkdir(exist_ok=True)
        for name, rule in (("a", "one"), ("b", "two"), ("c", "one"), ("d#", "three")):
            text = ANY.format(rule).replace("mark: any", "mark: exact" if rule == "three" else "mark: any")
            (folder / f"{name}.script").write_text(text)
        return ["--conformance", "ruled", "--seeds", "none"]

    def test_groups(self) -> None:
        done = self.judge(*self.words("--findings", "3", "--keep", "found.old.script"))
        self.assertEqual((done.returncode, done.stderr), (1, ""))
        groups = done.stdout.splitlines()[-3:]
        self.assertEqual(groups[0], "judge: groups of findings: 2")
        self.assertEqual(groups[1], "judge: scripts with a finding: 3, kept in found.old.script, a difference at "
                         "`same`, copy, clear, same and shape: `NAME same A B`")
        self.assertTrue(groups[2].startswith("judge: scripts with a finding: 1, kept in found.old-2.script, "
                                             "a difference at `read`, "), groups[2])
        kept = [read_case((self.bench.folder / f"found.old{it}.script").read_text()) for it in ("", "-2")]
        self.assertEqual([it.script.events[-1].word for it in kept], ["same", "read"])

    def test_it_ends_with_the_last_group_that_is_wanted(self) -> None:
        done = self.judge(*self.words("--findings", "2", "--progress"))
        self.assertNotIn("5 of 5 scripts", done.stderr)
        self.assertIn("\njudge: groups of findings: 2\njudge: scripts with a finding: 2, ", done.stdout)
        self.assertNotIn("groups", self.judge(*self.words()).stdout)

    def test_rules_are_groups(self) -> None:
        done = self.judge(*self.stated(), *self.words("--findings", "9")[10:])
        self.assertEqual([line.split(": ", 2)[2] for line in done.stdout.splitlines()[-2:]],
                         ["2, kept in judge-finding.script, rule: one", "1, kept in judge-finding-2.script, rule: two"])

    def test_tap(self) -> None:
        done = self.judge(*self.stated(), *self.words("--tap"))
        self.assertEqual((done.returncode, done.stderr), (1, ""))
        lines = [line for line in done.stdout.splitlines() if not line.startswith(("  ", "#"))]
        self.assertEqual(lines, [
            "TAP version 13", "not ok 1 - same.script", "ok 2 - good.script", "not ok 3 - same.script",
            "not ok 4 - read.script", "not ok 5 - same.script", "not ok 6 - a.script", "not ok 7 - b.script",
            "not ok 8 - c.script",
            "ok 9 - d\\#.script # SKIP its replies are those of metroheap alone; --exact asks it", "1..9"])
        self.assertIn('\n  ---\n  message: "a difference at event 1 of 1, `a same 0 0`"\n'
                      '  kept: "judge-finding.script"\n  report: |\n    # manual: copy, ', done.stdout)
        self.assertEqual(done.stdout.count("\n  kept: "), 1)
        self.assertIn("\n# judge: groups of findings: 4\n", done.stdout)
        for line in done.stdout.splitlines():
            self.assertRegex(line, r"\A(TAP|ok|not ok|1\.\.|#|  )")

    def test_tap_without_a_finding(self) -> None:
        done = self.judge("--tap", "--script", "good.script", "--", *self.own("run"))
        self.assertEqual((done.returncode, done.stderr), (0, ""))
        self.assertRegex(done.stdout, r"\ATAP version 13\nok 1 - good.script\n# judge: nothing was found; "
                         r"(.*\n# .*)*\n1\.\.1\n\Z")

    def test_tap_of_several_groups(self) -> None:
        done = self.judge(*self.words("--tap", "--findings", "2"))
        self.assertEqual(re.findall(r'(?m)^(?:not ok|  kept:) .*', done.stdout), [
            "not ok 1 - same.script", '  kept: "judge-finding.script"', "not ok 3 - same.script",
            "not ok 4 - read.script", '  kept: "judge-finding-2.script"'])
        self.assertTrue(done.stdout.endswith("\n1..4\n"))

    def test_junit(self) -> None:
        done = self.judge(*self.stated(), *self.words("--junit", "all.xml", "--mode", "<&>"))
        self.assertEqual((done.returncode, done.stderr), (1, ""))
        self.assertTrue(done.stdout.startswith("judge: a difference at event 1 of 1, `a same 0 0`\n"))
        suite = ElementTree.parse(self.bench.folder / "all.xml").getroot().find("testsuite")
        counts = {name: suite.get(name) for name in ("tests", "failures", "skipped", "errors")}
        self.assertEqual(counts, {"tests": "9", "failures": "7", "skipped": "1", "errors": "0"})
        first = suite.find("testcase")
        self.assertEqual(first.get("name"), "same.script, mode <&>")
        self.assertIn("\n# right: yes\n# yours: no\n", first.find("failure").text)
        self.assertTrue(first.find("failure").text.endswith("kept in judge-finding.script\n"))

    def test_a_run_that_fails(self) -> None:
        words = ["--script", "good.script", "--tap", "--junit", "all.xml"]
        done = self.judge("--reference", "false", *words, "--", "cat")
        self.assertEqual(done.returncode, 3)
        self.assertEqual(done.stdout, "TAP version 13\nBail out! good.script: `false run` ended with status 1: \n")
        self.assertEqual(len(ElementTree.parse(self.bench.folder / "all.xml").getroot().findall(".//error")), 1)
        self.assertEqual(self.judge(*words, "--junit", "none/all.xml", "--", "cat").returncode, 3)

    def test_a_stop(self) -> None:
        """What was found before it counts, and the listings say that not all was judged."""
        command = f"tee it | grep -q read && exec sleep 100; {self.bench.program} run < it | sed s/yes/no/"
        words = ["--script", "same.script", "--script", "read.script", "--tap", "--", "sh", "-c", command]
        process = subprocess.Popen(self.command(*words), cwd=self.bench.folder, stdin=subprocess.DEVNULL,
                                   stdout=subprocess.PIPE, text=True, stderr=subprocess.DEVNULL)
        lines = [process.stdout.readline() for _ in range(2)]
        self.assertEqual(lines, ["TAP version 13\n", "not ok 1 - same.script\n"])
        process.send_signal(signal.SIGTERM)
        self.assertTrue(process.communicate()[0].endswith("Bail out! stopped\n# judge: stopped; the finding is kept in "
                                                          "judge-finding.script\n"))
        self.assertEqual(process.returncode, 1)
