"""Lists what came of each script for other programs: by the Test Anything Protocol, and as JUnit's XML."""
from __future__ import annotations

import pathlib
import time
from collections.abc import Iterator
from dataclasses import dataclass
from xml.etree import ElementTree

from judging.reporting import Report, shown

LEFT_OUT = "its replies are those of metroheap alone; --exact asks it"


@dataclass(frozen=True)
class Entry:
    """What came of a script: it was left out, it has a finding, or neither."""
    name: str
    is_left_out: bool = False
    report: Report | None = None
    # The file that has the finding, if it is kept.
    kept: str = ""


class Listing:
    """What is written for each script, and at the end."""

    def add(self, entry: Entry) -> None:
        raise NotImplementedError

    def end(self) -> None:
        raise NotImplementedError

    def bail(self, why: str) -> None:
        """Says that not all is judged."""
        raise NotImplementedError


class Tap(Listing):
    """Version 13 of the protocol, on standard output."""

    def __init__(self) -> None:
        self.count = 0
        print("TAP version 13", flush=True)

    def add(self, entry: Entry) -> None:
        self.count += 1
        word = "not ok" if entry.report else "ok"
        skip = f" # SKIP {LEFT_OUT}" if entry.is_left_out else ""
        name = shown(entry.name).replace("#", "\\#")
        print(f"{word} {self.count} - {name}{skip}", *diagnostic(entry), sep="\n", flush=True)

    def end(self) -> None:
        print(f"1..{self.count}", flush=True)

    def bail(self, why: str) -> None:
        print(f"Bail out! {shown(why)}", flush=True)


def quoted(text: str) -> str:
    """A text of YAML."""
    escaped = shown(text).replace("\\", "\\\\").replace('"', '\\"')
    return f'"{escaped}"'


def diagnostic(entry: Entry) -> Iterator[str]:
    """What stands below a line, in YAML."""
    if entry.report:
        yield "  ---"
        yield f"  message: {quoted(entry.report.summary())}"
        if entry.kept:
            yield f"  kept: {quoted(entry.kept)}"
        yield "  report: |"
        yield from (f"    {line}" for line in entry.report.printed().splitlines())
        yield "  ..."


class JUnit(Listing):
    """A file with a test case for each script."""

    def __init__(self, path: str) -> None:
        self.path, self.begun = pathlib.Path(path), time.monotonic()
        self.suite = ElementTree.Element("testsuite", name="metroheap-judge")
        # That it can't be written is known before anything is judged.
        self.path.write_bytes(b"")

    def case(self, name: str) -> ElementTree.Element:
        return ElementTree.SubElement(self.suite, "testcase", classname="metroheap-judge", name=shown(name))

    def add(self, entry: Entry) -> None:
        case = self.case(entry.name)
        if entry.is_left_out:
            ElementTree.SubElement(case, "skipped", message=LEFT_OUT)
        elif entry.report:
            failure = ElementTree.SubElement(case, "failure", message=shown(entry.report.summary()))
            failure.text = entry.report.printed() + (f"kept in {entry.kept}\n" if entry.kept else "")

    def end(self) -> None:
        counts = {"tests": "testcase", "failures": "testcase/failure", "errors": "testcase/error",
                  "skipped": "testcase/skipped"}
        for name, path in counts.items():
            self.suite.set(name, str(len(self.suite.findall(path))))
        self.suite.set("time", f"{time.monotonic() - self.begun:.3f}")
        suites = ElementTree.Element("testsuites")
        suites.append(self.suite)
        ElementTree.indent(suites)
        ElementTree.ElementTree(suites).write(self.path, encoding="utf-8", xml_declaration=True)

    def bail(self, why: str) -> None:
        ElementTree.SubElement(self.case("the whole run"), "error", message=shown(why))
        self.end()
