"""Tests of what is made of a finding, and of the limits of shrinking."""
from __future__ import annotations

import re
import signal
import subprocess
import time
from unittest import mock

from judge_tests.bench import KEPT, MOST_EVENTS, PYTHON, JudgeCase
from judge_tests.faults import C_FAULTS
from judging.comparing import Kind
from judging.reporting import ADDR_NO_RANDOMIZE, has_steady_addresses
from judging.scripts import read_case

# Makes the thirteenth object that is asked for, also if it is too large.
COUNTS = """import sys
for count, line in enumerate(sys.stdin):
    if count > 0:
        is_too_large = int(line.split()[-1]) > 216000
        print("refused 4 too large" if is_too_large and count != 13 else "ok")
"""


class Findings(JudgeCase):
    """What is made of a finding, on a toy whose `shape` is wrong."""

    def faulty(self) -> list[str]:
        fault = C_FAULTS[0]
        return self.bench.toy(fault.name, fault.old, fault.new)

    def test_the_report(self) -> None:
        text = self.finds(Kind.DIFFERENCE, "--script", "plain1.script", "--", *self.faulty())
        self.assertRegex(text, r"""\A# manual: copy, clear, same and shape: `NAME shape S` answers .*
# manual: What sessions see: The reply to a session's command has to be that of a heap that never collects .*
# catches: a difference at event 2 of 2, `a shape 0`
# mark: any
# from: plain1.script, \d+ events, by \d+ runs
# right: shape (\d+) (\d+)
# yours: shape \2 \1

config 1 209 0 0
a new 0 \1 \2
# ok

# here
a shape 0
# shape \1 \2
\Z""")

    def test_a_kept_script_is_found_again(self) -> None:
        kept = self.finds(Kind.DIFFERENCE, "--script", "plain1.script", "--", *self.faulty())
        (self.bench.folder / "kept/shapes").mkdir(parents=True)
        self.bench.write("kept/shapes/counts.script", kept)
        for words in (["--script", "kept/shapes/counts.script"], ["--conformance", "kept", "--seeds", "none"]):
            again = self.finds(Kind.DIFFERENCE, *words, "--", *self.faulty())
            self.assertEqual(read_case(again).script, read_case(kept).script)
            self.finds_nothing(*words, "--", *self.bench.toy("semispace"))

    def test_the_schedule_changes_nothing(self) -> None:
        words = ["--seeds", "1..6", "--events", "200", "--conformance", "none"]
        outputs = {self.judge(*words, "--jobs", jobs, "--", *self.faulty()).stdout for jobs in ("1", "5")}
        self.assertEqual(len(outputs), 1)
        self.assertIn("# catches: a difference at event ", outputs.pop())

    def test_a_finding_that_comes_and_goes(self) -> None:
        for runs, found in (("1", 1), ("1|4", 2), ("1|3|4", 3)):
            (self.bench.folder / "count").write_text("0")
            command = (f"{self.bench.program} run; n=$(($(cat count) + 1)); echo $n > count; "
                       f"case $n in {runs}) exit 5 ;; esac")
            done = self.judge("--script", "exact.script", "--", "sh", "-c", command)
            self.assertEqual(done.returncode, 1)
            self.assertIn(f"\n# note: found in {found} of 5 runs of this script: ", done.stdout)
            self.assertIn("`setarch -R`", done.stdout)

    def test_addresses_that_are_the_same(self) -> None:
        """Whoever keeps them so isn't asked to."""
        command = f"n=$(cat count); echo $((n + 1)) > count; {self.bench.program} run; [ $((n % 2)) = 1 ]"
        for program in (["setarch", "-R"], ["env"]):
            (self.bench.folder / "count").write_text("0")
            done = self.judge("--script", "exact.script", "--", *program, "sh", "-c", command)
            self.assertIn("\n# note: found in ", done.stdout)
            self.assertEqual("`setarch -R`" in done.stdout, program == ["env"], done.stdout)
        with mock.patch("judging.reporting.personality", lambda: ADDR_NO_RANDOMIZE):
            self.assertTrue(has_steady_addresses(["cat"]))

    def test_a_finding_that_comes_and_goes_is_shrunk_by_asking_again(self) -> None:
        """Each second run has it."""
        command = (f"n=$(cat count); echo $((n + 1)) > count; {self.bench.program} run | "
                   "if [ $((n % 2)) = 0 ]; then sed s/yes/no/; else cat; fi")
        for repeat in ("1", "2"):
            (self.bench.folder / "count").write_text("0")
            done = self.judge("--script", "short.script", "--repeat", repeat, "--", "sh", "-c", command)
            self.assertEqual(done.returncode, 1)
            self.assertIn("\n# note: found in 3 of 5 runs of this script: ", done.stdout)
            self.assertIn("`setarch -R`", done.stdout)
            self.assertEqual(len(read_case(self.kept()).script.events) <= MOST_EVENTS, repeat == "2")

    def test_a_long_finding_is_not_printed_whole(self) -> None:
        done = self.judge("--script", "plain1.script", "--shrink-runs", "1", "--", "sh", "-c", "exit 3")
        self.assertEqual(done.returncode, 1)
        self.assertLess(len(done.stdout.splitlines()), 20)
        self.assertRegex(done.stdout, rf"\n\.\.\. and \d+ lines with .*\njudge: kept in {KEPT}\n\Z")
        self.assertGreater(len(self.kept().splitlines()), 1000)

    def test_the_head_and_the_last_line_of_standard_error_are_kept(self) -> None:
        command = "echo it broke here >&2; yes and so on | head -n 999 >&2; echo the end >&2; echo >&2; exit 3"
        text = self.finds(Kind.DEATH, "--script", "short.script", "--", "sh", "-c", command)
        self.assertIn("\n# standard error: it broke here\n# standard error: and so on\n", text)
        self.assertRegex(text, r"\n# standard error: \.\.\. and \d+ bytes more\n")
        self.assertTrue(text.startswith("# last: the end\n"), text)
        self.assertNotIn("standard error: the end", text)

    def loud(self) -> list[str]:
        """A toy that says where it stops."""
        answer, said = "strcpy(reply, roots[n[0]] ==", r'fputs("a banner\nheap.c:7: is lost\n\n", stderr);'
        return self.bench.toy("loud", answer, f"{said}\nabort();\n{answer}")

    def test_a_crash_has_its_last_line_first_and_can_be_run_again(self) -> None:
        text = self.finds(Kind.DEATH, "--script", "short.script", "--", *self.loud())
        self.assertTrue(text.startswith("# last: heap.c:7: is lost\n# catches: "), text)
        self.assertNotIn("# note: replies may", text)
        (below_gdb,) = re.findall("(?m)^# gdb: (.*)", text)
        (below_valgrind,) = re.findall("(?m)^# valgrind: (.*)", text)
        alone = below_gdb.replace("gdb -batch -ex run -ex backtrace --args ", "")
        self.assertEqual(alone, below_valgrind.replace("valgrind --trace-children=yes ", ""))
        done = subprocess.run(alone, shell=True, cwd=self.bench.folder, capture_output=True, text=True, check=False)
        self.assertIn(done.returncode, (-signal.SIGABRT, 128 + signal.SIGABRT))
        self.assertEqual(done.stderr.splitlines()[:2], ["a banner", "heap.c:7: is lost"])

    def test_the_event_of_a_crash(self) -> None:
        """It is sure by one more run, line by line. Without such a run the last event is taken."""
        self.bench.write("four.script", "config 4 209 0 0\na new 0 0 1\na same 0 0\na shape 0\na clear 0\n")
        words = ["--script", "four.script", "--shrink-runs", "1", "--"]
        text = self.finds(Kind.DEATH, *words, *self.loud())
        self.assertIn("\n# catches: a crash at event 2 of 4, `a same 0 0`\n", text)
        self.assertNotIn("# note: replies may have been kept back", text)
        text = self.finds(Kind.DEATH, *words, "sh", "-c", "cat > it; exit 3")
        self.assertIn("\n# catches: a crash at event 4 of 4, `a clear 0`\n", "\n" + text)
        self.assertIn("\n# note: replies may have been kept back, ", text)

    def test_where_there_is_no_reply_no_manual_is_quoted(self) -> None:
        for command in ("exit 3", "exit 0"):
            done = self.judge("--conformance", "none", "--seeds", "1..1", "--events", "50", "--", "sh", "-c", command)
            self.assertRegex(done.stdout, r"\Ajudge: .*\n# catches: ")
            self.assertNotIn("# before:", done.stdout)

    def test_a_full_reference_ends_the_script(self) -> None:
        self.bench.write("full.script", "config 1 209 0 0\na new 0 0 60\nb new 0 1 61\nb shape 0\n")
        said = self.finds_nothing("--script", "full.script", "--", *self.bench.toy("semispace"))
        self.assertIn("events: 1,", said)

    def test_a_count_stays_a_number_of_a_script(self) -> None:
        """Of two objects that are too large none is made that no script may have."""
        self.bench.write("counts.py", COUNTS)
        self.bench.write("great.script", "config 1 209 0 0\n" + f"a new 0 0 {(1 << 32) - 1}\n" * 20)
        done = self.judge("--script", "great.script", "--", *PYTHON, "counts.py")
        self.assertEqual((done.returncode, done.stderr), (1, ""))
        self.assertEqual(len(re.findall(r"(?m)^a new ", self.kept())), 13)

    def test_progress(self) -> None:
        scripts = ["--script", "plain1.script", "--script", "plain2.script"]
        done = self.judge("--progress", *scripts, "--", *self.bench.toy("semispace"))
        self.assertEqual(done.stderr, "judge: 1 of 2 scripts, plain1.script\njudge: 2 of 2 scripts, plain2.script\n")


class Limits(JudgeCase):
    """Shrinking keeps its limits and what it has, for a long script in which the six hundredth collection is wrong."""

    def late(self) -> list[str]:
        old = "    return heap->top - 1;"
        return self.bench.toy("late", old, f"""    static int count;
    if (++count % 600 == 0)
        memset(heap->space + 1, 0, (heap->top - 1) * sizeof *heap->space);
{old}""")

    def begun(self, said: str, *words: str) -> subprocess.Popen:
        """The judge, once it has said so on standard error."""
        (self.bench.folder / KEPT).unlink(missing_ok=True)
        process = subprocess.Popen(self.command("--progress", *words), cwd=self.bench.folder, stdin=subprocess.DEVNULL,
                                   stdout=subprocess.PIPE, stderr=subprocess.PIPE, text=True,
                                   preexec_fn=lambda: signal.signal(signal.SIGINT, signal.SIG_DFL))
        self.assertTrue(any(said in line for line in process.stderr), said)
        return process

    def test_seconds(self) -> None:
        begin = time.monotonic()
        done = self.judge("--script", "long.script", "--shrink-seconds", "1", "--", *self.late())
        # The compiler, the first run, and a machine with other work take their time too.
        self.assertLess(time.monotonic() - begin, 8)
        self.assertEqual((done.returncode, done.stderr), (1, ""))
        self.assertIn("\n# note: shrinking came to its limit", done.stdout)

    def test_seconds_of_a_script_of_which_nothing_can_be_dropped(self) -> None:
        """Only the reply to event 14,000 is wrong, so each attempt makes a long script for nothing. Without the limit
        they take minutes."""
        begin = time.monotonic()
        command = f"{self.bench.program} run | sed '14000s/.*/wrong/'"
        done = self.judge("--script", "long.script", "--shrink-seconds", "2", "--", "sh", "-c", command)
        self.assertLess(time.monotonic() - begin, 20)
        self.assertIn("\n# catches: a difference at event 14000 of 14000", done.stdout)
        self.assertIn("\n# note: shrinking came to its limit", done.stdout)

    def test_seconds_end_a_run(self) -> None:
        words = ["--script", "short.script", "--shrink-seconds", "0.2", "--", "sh", "-c", "sleep 1; exit 3"]
        said = self.judge(*words).stdout
        self.assertIn(" events, by 1 runs\n", said)
        self.assertIn("\n# note: shrinking came to its limit", said)

    def test_runs(self) -> None:
        said = self.judge("--script", "long.script", "--shrink-runs", "9", "--", *self.late()).stdout
        self.assertIn(" events, by 9 runs\n", said)
        self.assertIn("\n# note: shrinking came to its limit", said)

    def test_a_stop_while_shrinking(self) -> None:
        late = self.late()
        for number in (signal.SIGINT, signal.SIGTERM):
            process = self.begun("events left", "--script", "long.script", "--", *late)
            first = read_case(self.kept())
            self.assertIn("\n# note: kept while the judge shrank this", self.kept())
            process.send_signal(number)
            printed = process.communicate()[0]
            self.assertEqual(process.returncode, 1, printed)
            self.assertIn("\n# note: the judge was stopped while it shrank this", printed)
            self.assertIn("\n# note: the judge was stopped while it shrank this", self.kept())
            self.assertTrue(printed.endswith(f"judge: kept in {KEPT}\n"), printed)
            self.assertLess(len(read_case(self.kept()).script.events), len(first.script.events))

    def test_a_stop_before_there_is_a_finding(self) -> None:
        (self.bench.folder / "begun").unlink(missing_ok=True)
        command = f"test -e begun && exec sleep 100; touch begun; {self.bench.program} run"
        words = ["--script", "short.script", "--script", "short.script", "--", "sh", "-c", command]
        for number in (signal.SIGINT, signal.SIGTERM):
            process = self.begun("1 of 2 scripts", *words)
            process.send_signal(number)
            self.assertEqual((process.communicate()[0], process.returncode), ("", 130))
            self.assertFalse((self.bench.folder / KEPT).exists())
            (self.bench.folder / "begun").unlink()
