"""Counts the lines of what is compiled from C by gcov."""
from __future__ import annotations

import json
import os
import pathlib
import subprocess
from collections.abc import Mapping, Sequence
from typing import Any

from faults.counts import Files, Function, Line
from faults.planted import Collector
from faults.workshop import Failed, Workshop

# Lines are where the source has them only if nothing is optimised.
FLAGS = "--coverage -O0"


class Gcov:
    """A collector of C, and what gcov says of it. A file that is compiled more than once has the sum."""

    def __init__(self, collector: Collector, folder: pathlib.Path, left_out: str) -> None:
        self.workshop, self.left_out = Workshop(collector, folder, FLAGS), left_out
        self.built = self.workshop.built
        self.files: Files = {}

    def build(self) -> None:
        self.workshop.prepare()
        self.workshop.build(None)

    def counts(self) -> Sequence[pathlib.Path]:
        return [path for path in sorted(self.workshop.room.rglob("*.gcda")) if not path.match(self.left_out)]

    def forget(self) -> None:
        for path in self.workshop.room.rglob("*.gcda"):
            path.unlink()

    def version(self) -> str:
        return self.workshop.version()

    def read(self, files: Sequence[str]) -> Files:
        self.files = {file: {} for file in files}
        for path in self.counts():
            self.add_file(path)
        return self.files

    def add_file(self, counts: pathlib.Path) -> None:
        done = subprocess.run(["gcov", "--json-format", "--stdout", counts.name], cwd=counts.parent,
                              stdin=subprocess.DEVNULL, capture_output=True, text=True, check=False)
        if done.returncode != 0:
            raise Failed(f"gcov can't read {counts}: {done.stderr}")
        for text in done.stdout.splitlines():
            self.add(json.loads(text))

    def add(self, said: Mapping[str, Any]) -> None:
        folder = pathlib.Path(said["current_working_directory"])
        for file in said["files"]:
            path = (folder / file["file"]).resolve()
            name = os.path.relpath(path, self.workshop.tree)
            if name in self.files:
                add_functions(self.files[name], file)


def add_functions(functions: dict[str, Function], said: Mapping[str, Any]) -> None:
    for each in said["functions"]:
        found = functions.setdefault(each["name"], Function(each["start_line"]))
        found.runs += each["execution_count"]
    for each in said["lines"]:
        if each.get("function_name") in functions:
            add_line(functions[each["function_name"]].lines, each)


def add_line(lines: dict[int, Line], said: Mapping[str, Any]) -> None:
    """What one compilation left out another may have run, so a part is missing only where it is in all."""
    number, is_part = said["line_number"], bool(said["unexecuted_block"])
    if number in lines:
        lines[number].is_part &= is_part
    else:
        lines[number] = Line(0, is_part)
    lines[number].runs += said["count"]
