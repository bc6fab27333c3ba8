"""Tests of what `test-adapters` says of an author's own source tree. Nothing is fetched, and no collector is built."""
from __future__ import annotations

import pathlib
import subprocess
import tempfile
import unittest

from faults.own import TREES, order_of
from judge_tests.bench import KIT, PYTHON, JudgeCase
from judging.options import Usage

TEXT = "#error no collector\n"


class OwnSource(JudgeCase):
    """Exit statuses, and what is said before anything is compiled."""

    def adapters(self, *words: str, **environment: str) -> subprocess.CompletedProcess:
        command = [*PYTHON, KIT / "test-adapters", "--program", self.bench.program, *words]
        return subprocess.run(command, cwd=self.bench.folder, stdin=subprocess.DEVNULL, capture_output=True, text=True,
                              check=False, env=environment or None)

    def tree(self, name: str, mark: str) -> pathlib.Path:
        tree = self.bench.folder / name
        (tree / mark).parent.mkdir(parents=True, exist_ok=True)
        (tree / mark).write_text(TEXT)
        return tree

    def test_statuses(self) -> None:
        self.tree("nothing", "README")
        self.tree("lua", "src/lgc.c")
        self.tree("taken", "own/README")
        self.bench.write("any.patch", "")
        cases = [
            (2, "no source tree that can be built", ["--source", "nothing"]),
            (2, "it has no file src/lgc.c (lua)\n", ["--source", "nothing", "lua"]),
            (2, "there is no folder none", ["--source", "none"]),
            (2, "there is no file none.patch", ["--patch", "none.patch", "lua"]),
            (2, "lua, libgc, ocaml, cpython", ["--patch", "any.patch"]),
            (2, "java isn't built of its source", ["--patch", "any.patch", "java"]),
            (2, "of one collector", ["--patch", "any.patch", "lua", "libgc"]),
            (2, "--folder goes with", ["--folder", "here"]),
            (2, "lies within", ["--source", "lua", "--folder", "lua/built"]),
            (3, "not of an earlier run", ["--source", "lua", "--folder", "taken"]),
            (3, "kit/wrong/collector", ["--program", "./none", "lua"]),
        ]
        for status, said, words in cases:
            done = self.adapters(*words)
            self.assertEqual((done.returncode, done.stdout), (status, ""), (words, done.stderr))
            self.assertIn(said, done.stderr)

    def test_what_is_missing(self) -> None:
        """Packages are named all at once."""
        self.bench.write("any.patch", "")
        done = self.adapters("--patch", "any.patch", "cpython", PATH=str(self.bench.folder))
        self.assertEqual((done.returncode, done.stdout), (3, ""))
        self.assertRegex(done.stderr, "apt-get install gcc libc6-dev make apt dpkg-dev( debian-archive-keyring)? patch")

    def test_a_tree_that_fails(self) -> None:
        """It is copied, and stays as it is."""
        tree = self.tree("broken", "src/lgc.c")
        done = self.adapters("--source", "broken", "--folder", "work")
        self.assertEqual((done.returncode, done.stdout), (3, ""))
        self.assertIn("no collector", done.stderr)
        self.assertEqual([path.name for path in tree.rglob("*")], ["src", "lgc.c"])


class Trees(unittest.TestCase):
    """Which collector a source tree is of."""

    def test_marks(self) -> None:
        with tempfile.TemporaryDirectory() as folder:
            for tree in TREES:
                path = pathlib.Path(folder) / tree.name / tree.mark
                path.parent.mkdir(parents=True)
                path.touch()
                own = order_of(None, f"{folder}/{tree.name}", None)
                self.assertEqual((own.tree, own.tree.place(own.source)), (tree, "."))
            own = order_of("lua", f"{folder}/lua/src", None)
            self.assertEqual(own.tree.place(own.source), "src")
            with self.assertRaises(Usage):
                order_of("ocaml", f"{folder}/lua", None)
