"""Tests of how programs are run: their modes, the time of long scripts, and what they say of their cycles."""
from __future__ import annotations

import re
import unittest

from judge_tests.bench import JudgeCase
from judge_tests.faults import SOON
from judging.comparing import Judgement, Kind
from judging.cycles import Said, said_in
from judging.modes import modes_of
from judging.options import TURNS, Usage
from judging.scripts import read_case
from judging.sources import Seeded


class Modes(JudgeCase):
    """A program whose fault is that of one mode."""

    MODES = ("--mode", "one way", "--mode", "two ways")

    def faulty(self) -> list[str]:
        """The shell lets `$0` be the first word of the mode."""
        change = "case $0 in two) sed s/yes/no/ ;; *) cat ;; esac"
        return ["sh", "-c", f"{self.bench.program} run | {change}", "{}", "word"]

    def test_the_mode_of_a_finding(self) -> None:
        text = self.finds(Kind.DIFFERENCE, *self.MODES, "--script", "short.script", "--", *self.faulty())
        self.assertRegex(text, "\n# mark: any\n# mode: two ways\n# from: short.script, .*\n# right: yes\n")
        self.bench.write("kept.script", "# rule: some rule\n" + text)
        for name in ("one", "two"):
            done = self.judge("--mode", name, "--script", "kept.script", "--", *self.faulty())
            self.assertEqual(done.returncode, int(name == "two"))
        self.assertTrue(self.kept().startswith("# rule: some rule\n# manual: "), self.kept())

    def test_scripts_by_mode(self) -> None:
        words = ["--script", "short.script", "--seeds", "1..3", "--events", "20", "--mode", "1", "--mode", "2 'a b'"]
        command = f'echo "$@" >> words; exec {self.bench.program} run'
        said = self.finds_nothing(*words, "--", "sh", "-c", command, "sh")
        self.assertIn("scripts: 5,", said)
        self.assertIn("\njudge: scripts by mode: 3 of `1`, 2 of `2 'a b'`\n", said)
        self.assertEqual((self.bench.folder / "words").read_text(), "1\n2 a b\n1\n2 a b\n1\n")

    def test_words(self) -> None:
        cases = [("p {} x", "'a b' c", "p|a b|c|x"), ("env {}", "A=1 ./p", "env|A=1|./p"), ("p x", "c", "p|x|c"),
                 ("{}", "p", "p"), ("p", "", "p")]
        for program, name, words in cases:
            self.assertEqual("|".join(modes_of(program.split(), [name])[0].program), words)
        self.assertEqual([mode.program for mode in modes_of(["p", "{}"], [])], [("p", "{}")])
        for name in ("", "'"):
            self.assertRaises(Usage, modes_of, ["{}"], [name])

    def test_each_profile_comes_to_each_mode(self) -> None:
        for count in (2, 3, len(TURNS)):
            modes = modes_of(["p"], [str(number) for number in range(count)])
            seeded = Seeded(range(0), [], None)
            made = [seeded.source(seed, modes) for seed in range(1, 1 + count * len(TURNS))]
            self.assertEqual(len({(it.name.split()[-1], it.mode) for it in made}), len(made))


class Times(JudgeCase):
    """How long a program may take for a script, and that a slow one isn't taken to hang."""

    WORDS = ("--script", "few.script", "--script", "few.script", "--script", "few.script")
    # What answers that script rightly, as often as it comes.
    RIGHT = "sed -u -e /config/d -e s/.*new.*/ok/ -e s/.*same.*/yes/ -e 's/.*shape.*/shape 0 1/'"
    ONCE = "mkdir slept && sleep 100"
    SEVERAL = "tee it | grep -c config | grep -q 2"

    def shell(self, command: str) -> list[str]:
        """A program, and what it is asked."""
        self.bench.write("few.script", "config 4 209 0 0\na new 0 0 1\na same 0 0\na shape 0\n")
        return ["sh", "-c", command]

    def test_seconds_for_each_event(self) -> None:
        words = ["--script", "short.script", "--seconds", "0.2"]
        slow = ["sh", "-c", f"sleep 2; exec {self.bench.program} run"]
        self.finds_nothing(*words, "--event-seconds", "0.05", "--", *slow)
        self.finds(Kind.HANG, *words, "--event-seconds", "0", "--shrink-runs", "300", "--", *slow)

    def test_slow_once(self) -> None:
        """The second run of a script, or of several, has its answer in time, so there is no finding."""
        once, several = f"{self.ONCE}; exec {self.RIGHT}", f"{self.SEVERAL} && {self.ONCE}; exec {self.RIGHT} < it"
        for protocol, command in (("run", once), ("live", once), ("many", once), ("many", several)):
            self.finds_nothing(*self.WORDS, *SOON, "--protocol", protocol, "--", *self.shell(command))
            (self.bench.folder / "slept").rmdir()

    def test_slow_always(self) -> None:
        for protocol in ("run", "live", "many"):
            text = self.finds(Kind.HANG, *self.WORDS, *SOON, "--protocol", protocol, "--", *self.shell("sleep 100"))
            self.assertIn("\n# yours: no end within 3 s\n# note: asked twice: the program got 0.15 s, and then 3 s\n",
                          text)

    def test_a_hang_that_is_not_shrunk(self) -> None:
        """One whose smaller scripts only take long is kept as it is, as it was asked twice."""
        slow = self.shell(f"tee it | wc -l | grep -q 4 && exec sleep 100; sleep 1.5; {self.bench.program} run < it")
        text = self.finds(Kind.HANG, *self.WORDS[:2], "--seconds", "1", "--event-seconds", "0", "--", *slow)
        self.assertIn("\n# note: asked twice: the program got 1 s, and then 5 s\n# note: smaller scripts were slow, ",
                      text)
        self.assertEqual(len(read_case(text).script.events), 3)

    def test_one_that_hangs_behind_others(self) -> None:
        """It is asked behind them twice too."""
        slow = self.shell(f"{self.SEVERAL} && exec sleep 100; exec {self.RIGHT} < it")
        done = self.judge(*self.WORDS, *SOON, "--protocol", "many", "--", *slow)
        self.assertEqual((done.returncode, done.stderr), (1, ""))
        self.assertTrue(done.stdout.startswith("judge: a hang in script 2, "), done.stdout)
        self.assertRegex(done.stdout, r"\n# note: asked twice: the program got [\d.]+ s, and then 6 s\n")


class Cycles(JudgeCase):
    """What programs say of their cycles is told."""

    def test_counts(self) -> None:
        change = "s/^spent .*/phase mark x 1 within 20 more y cycles 7/"
        scripts = ["--script", "plain1.script", "--script", "short.script"]
        said = self.finds_nothing(*scripts, "--", "sh", "-c", f"{self.bench.program} run | sed '{change}'")
        self.assertIn("\njudge: cycles of your collector: 14, commands within a cycle: 40, phases: mark; so it says in "
                      "2 of 2 scripts\n", said)
        self.assertNotIn("warning", said)

    def test_modes(self) -> None:
        """One that doesn't try its collector isn't hidden by another."""
        command = f'{self.bench.program} run | sed "s/^spent .*/cycles $0/"'
        said = self.finds_nothing("--script", "short.script", "--mode", "0", "--mode", "3", "--", "sh", "-c", command)
        self.assertIn("\njudge: mode `0`: cycles of your collector: 0; so it says in 1 of 1 scripts\n"
                      "judge: mode `0`: warning: no cycle came to its end: let your collector work more often\n"
                      "judge: mode `3`: cycles of your collector: 3; so it says in 1 of 1 scripts\n", said)


class Answers(unittest.TestCase):
    """What is read in the answers to controls. If phases alone are said, the commands between them are counted."""

    TEXT = """config 4 209 0 0
a new 0 0 1
# ok
* start
# ok
a clear 0
# ok
* quantum
# spent 209 phase roots
a clear 0
# ok
a clear 1
# ok
* quantum
# spent 209 phase sweep
a clear 1
# ok
* quantum
# spent 2 phase idle
a clear 1
# ok
"""

    def said(self, text: str) -> Said:
        case = read_case("# mark: any\n\n" + text)
        return said_in(Judgement(case.script, case.stated, None, case.stated))

    def test_phases(self) -> None:
        said = self.said(self.TEXT)
        self.assertEqual(said, Said(1, 1, None, 3, frozenset(["roots", "sweep", "idle"])))
        self.assertEqual(list((said + said + Said(1)).lines()),
                         ["commands within a cycle: 6, phases: idle roots sweep; so it says in 2 of 3 scripts"])

    def test_what_is_counted_by_the_program_counts(self) -> None:
        said = self.said(self.TEXT.replace("phase sweep", "phase sweep within 100 cycles 1"))
        self.assertEqual((said.cycles, said.within), (1, 100))

    def test_warnings(self) -> None:
        cases = {"cycles 0": "no cycle came to its end", "cycles 9 phase idle": "no command came within a cycle",
                 "phase idle": "no command came within a cycle"}
        for words, warning in cases.items():
            *_, last = self.said(re.sub("spent .*", words, self.TEXT)).lines()
            self.assertTrue(last.startswith(f"warning: {warning}"), last)

    def test_nothing(self) -> None:
        for words in ("ok", "a cycles", "cycles many", "cycles -1", "x 1 y"):
            said = self.said(re.sub("spent .*", words, self.TEXT))
            self.assertEqual((said, list(said.lines())), (Said(1), []))
