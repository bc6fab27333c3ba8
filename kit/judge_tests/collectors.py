"""Tests of what the judge says of collectors: of the program itself, of the toys, and of toys with planted faults."""
from __future__ import annotations

import shlex
from collections.abc import Callable

from judge_tests.bench import ADAPTERS, KIT, PYTHON, TOP, TOYS, JudgeCase
from judge_tests.faults import C_FAULTS, EXACT_FAULTS, PYTHON_FAULTS, SHELL_FAULTS, SOON, Fault
from judging.comparing import Kind


class OwnProgram(JudgeCase):
    """Between the program and itself there is no difference."""

    def by(self, subcommand: str) -> list[str]:
        words = ["--protocol", subcommand, "--conformance", "none", "--seeds", "1..8", "--events", "200"]
        return [*words, "--", *self.own(subcommand)]

    def test_sessions_of_run(self) -> None:
        self.finds_nothing(*self.by("run"))

    def test_sessions_of_live(self) -> None:
        self.finds_nothing(*self.by("live"))

    def test_all_replies_of_run(self) -> None:
        self.finds_nothing("--exact", *self.by("run"))

    def test_all_replies_of_live(self) -> None:
        self.finds_nothing("--exact", *self.by("live"))

    def test_noise(self) -> None:
        scripts = [word for name in ("plain1", "plain2", "exact", "large") for word in ("--script", f"{name}.script")]
        self.finds_nothing("--exact", *scripts, "--", *self.own("run"))


class Toys(JudgeCase):
    """The toys pass if sessions are compared, and fail if all replies are."""

    def words(self, *options: str) -> list[str]:
        return ["--seeds", "1..8", "--events", "100", "--script", "plain1.script", "--script", "exact.script",
                "--conformance", str(TOP / "conformance") if (TOP / "conformance").is_dir() else "none", *options, "--"]

    def python(self) -> list[str]:
        return [*PYTHON, str(TOYS / "semispace.py")]

    def test_python(self) -> None:
        self.finds_nothing(*self.words(), *self.python())

    def test_python_line_by_line(self) -> None:
        self.finds_nothing(*self.words("--protocol", "live", "--conformance", "none"), *self.python())

    def test_python_is_not_exact(self) -> None:
        self.finds(Kind.DIFFERENCE, *self.words("--exact"), *self.python())

    def test_c(self) -> None:
        self.finds_nothing(*self.words(), *self.bench.toy("semispace"))

    def test_c_line_by_line(self) -> None:
        self.finds_nothing(*self.words("--protocol", "live"), *self.bench.toy("semispace"))

    def test_c_is_not_exact(self) -> None:
        self.finds(Kind.DIFFERENCE, *self.words("--exact"), *self.bench.toy("semispace"))

    def test_c_over_the_front(self) -> None:
        self.finds_nothing(*self.words(), *self.bench.built("never", TOYS / "never.c", ADAPTERS / "front.c"))

    def test_the_python_toy_is_short(self) -> None:
        self.assertLessEqual(len((TOYS / "semispace.py").read_text(encoding="utf-8").splitlines()), 150)


class PlantedFaults(JudgeCase):
    """Each planted fault is found, and shrunk to few events. The tests are made below."""

    def planted(self, fault: Fault, program: list[str]) -> None:
        scripts = [f"--script={name}" for name in fault.scripts]
        self.finds(fault.kind, *scripts, *fault.options, "--", *program)

    def in_c(self, fault: Fault) -> None:
        self.assertEqual((TOYS / "semispace.c").read_text(encoding="utf-8").count(fault.old), 1)
        self.planted(fault, self.bench.toy(fault.name, fault.old, fault.new))

    def in_python(self, fault: Fault) -> None:
        source = (TOYS / "semispace.py").read_text(encoding="utf-8")
        self.assertEqual(source.count(fault.old), 1)
        path = self.bench.write(f"{fault.name}.py", source.replace(fault.old, fault.new))
        self.planted(fault, [*PYTHON, str(path)])

    def by_shell(self, line: str, kind: Kind) -> None:
        command = line.format(program=self.bench.program)
        self.finds(kind, *(SOON if kind is Kind.HANG else ()), "--script", "plain1.script", "--", "sh", "-c", command)

    def in_controls(self, expression: str) -> None:
        command = f"{self.bench.program} run | sed -E {shlex.quote(expression)}"
        text = self.finds(Kind.DIFFERENCE, "--exact", "--script", "exact.script", "--", "sh", "-c", command)
        self.assertIn("\n# mark: exact\n", text)
        self.assertRegex(text, r"\n# before: dump")
        self.finds_nothing("--script", "exact.script", "--", "sh", "-c", command)


class References(JudgeCase):
    """What stands where the program does."""

    COLLECTOR = str(KIT / "wrong/collector")

    def test_none(self) -> None:
        done = self.judge("--reference", "./none", "--", "cat")
        self.assertEqual(done.returncode, 3)
        for word in ("rt run", "--reference kit/wrong/collector --seeds none", "rustc", "bench/plain.rs"):
            self.assertIn(word, done.stderr.splitlines()[0])

    def test_one_that_makes_no_scripts(self) -> None:
        done = self.judge("--reference", self.COLLECTOR, "--", "cat")
        self.assertEqual((done.returncode, done.stdout), (2, ""))
        self.assertIn("makes no scripts from seeds", done.stderr)
        self.assertIn("--seeds none", done.stderr)

    def test_the_collector_in_python(self) -> None:
        words = ["--reference", self.COLLECTOR, "--seeds", "none", "--conformance", str(TOP / "conformance/arraylets")]
        self.finds_nothing(*words, "--", *self.bench.toy("semispace"))
        fault = C_FAULTS[1]
        done = self.judge(*words, "--shrink-runs", "2", "--", *self.bench.toy(fault.name, fault.old, fault.new))
        self.assertEqual((done.returncode, done.stderr), (1, ""))
        self.assertIn("\n# right: number ", done.stdout)


def add_tests() -> None:
    """Makes a test of each planted fault."""
    def add(name: str, test: Callable[[PlantedFaults], None]) -> None:
        setattr(PlantedFaults, f"test_{name}", test)

    for fault in C_FAULTS:
        add(f"c_{fault.name}", lambda case, fault=fault: case.in_c(fault))
    for fault in PYTHON_FAULTS:
        add(f"python_{fault.name}", lambda case, fault=fault: case.in_python(fault))
    for name, (line, kind) in SHELL_FAULTS.items():
        add(f"shell_{name}", lambda case, line=line, kind=kind: case.by_shell(line, kind))
    for name, expression in EXACT_FAULTS.items():
        add(f"exact_{name}", lambda case, expression=expression: case.in_controls(expression))


add_tests()
