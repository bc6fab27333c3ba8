"""The rows of all faults: printed, kept, and written as a page."""
from __future__ import annotations

import datetime
import json
import pathlib
from collections.abc import Iterator, Sequence
from dataclasses import asdict, dataclass
from typing import Any

from faults.judging import IN_TURN, Row, adapter_of
from faults.known import ALL
from faults.planted import Collector, Fault

HEADER = ("Written by `kit/plant-faults`. Each fault is one edit, in `kit/faults`. Generated scripts take turns at the "
          "modes of the adapter: 20 of eight profiles and 20 of `barriers` with 10,000 events each, and 4 of `fans` "
          "with 43,000. Where a collection takes long (CPython, Ruby, Racket CS) they have 2,000, and there is one of "
          "`fans`. The smallest finding is shrunk. Seconds are those of all judging, on a busy machine.")
HEAD = ("| fault | kind | conformance files, in modes | generated | shrunk to | seconds |", "|---|---|---|---|---|---|")


def scripts_in(row: Row) -> str:
    """By how many of how many generated scripts something is found."""
    return ", ".join(f"{found} of {asked}" + ("" if series == IN_TURN else f" of {series}")
                     for series, (found, asked) in row.generated.items())


def verdict(row: Row) -> str:
    return "There is A FINDING" if row.is_found else "Nothing was found"


def cells(row: Row, modes: int) -> str:
    found = "all" if len(row.modes) == modes else "; ".join(row.modes) or "none"
    events = f"{row.events} event{'' if row.events == 1 else 's'}" if row.is_found else "-"
    events += ", with scripts before" if row.is_behind else ""
    return f"{found} | {scripts_in(row)} | {events}{', not steady' if row.is_unsteady else ''} | {row.seconds:.0f} |"


@dataclass
class Kept:
    """What is known of a collector: its version, how many modes its adapter has, the day, and the rows by names."""
    version: str
    modes: int
    day: str
    sound: Row
    rows: dict[str, Row]

    @staticmethod
    def read(kept: dict[str, Any]) -> Kept:
        rows = {name: Row(**row) for name, row in kept["rows"].items()}
        return Kept(**{**kept, "sound": Row(**kept["sound"]), "rows": rows})


class Results:
    """The rows of this run and of those before in the same folder."""

    def __init__(self, folder: pathlib.Path, page: str | None) -> None:
        self.folder, self.page = folder, page

    def kept(self, collector: Collector) -> Kept | None:
        path = self.folder / collector.name / "rows.json"
        return Kept.read(json.loads(path.read_text())) if path.exists() else None

    def keep(self, collector: Collector, kept: Kept) -> None:
        (self.folder / collector.name / "rows.json").write_text(json.dumps(asdict(kept), indent=1) + "\n")
        if self.page is not None:
            pathlib.Path(self.page).write_text("\n".join(self.lines()) + "\n")

    def add_sound(self, collector: Collector, version: str, row: Row) -> None:
        """The row of a collector as it is. Rows of another version are forgotten."""
        before, modes = self.kept(collector), len(adapter_of(collector).modes)
        rows = before.rows if before and before.version == version else {}
        self.keep(collector, Kept(version, modes, datetime.date.today().isoformat(), row, rows))
        print(f"{collector.name} {version}: {verdict(row)} in it as it is | {cells(row, modes)}", flush=True)

    def add(self, collector: Collector, fault: Fault, row: Row) -> None:
        kept = self.kept(collector)
        kept.rows[fault.name] = row
        print(f"{collector.name} {fault.name} | {fault.kind.value} | {cells(row, kept.modes)}", flush=True)
        self.keep(collector, kept)

    def lines(self) -> Iterator[str]:
        """The page."""
        known = [(each, kept) for each in ALL if (kept := self.kept(each))]
        yield from ("# Faults planted in released collectors", "", HEADER, "")
        yield from counts(known)
        for collector, kept in known:
            yield from section(collector, kept)


def counts(known: Sequence[tuple[Collector, Kept]]) -> Iterator[str]:
    """How many faults of each collector are found, and by what."""
    yield "| collector | date | faults | found by conformance files | by generated scripts | never |"
    yield "|---|---|---|---|---|---|"
    for collector, kept in known:
        rows = [kept.rows[fault.name] for fault in collector.faults if fault.name in kept.rows]
        yield (f"| {collector.name} {kept.version} | {kept.day} | {len(rows)} | {sum(bool(row.modes) for row in rows)} "
               f"| {sum(row.by_generated > 0 for row in rows)} | {sum(not row.is_found for row in rows)} |")


def section(collector: Collector, kept: Kept) -> Iterator[str]:
    """A row for each fault, then what each would do, and why some aren't found."""
    faults = [fault for fault in collector.faults if fault.name in kept.rows]
    left = len(collector.faults) - len(faults)
    yield from ("", f"## {collector.name} {kept.version}", "", f"{verdict(kept.sound)} in it as it is, in {kept.modes} "
                f"modes and {kept.sound.seconds:.0f} s." + (f" {left} other faults weren't judged." if left else ""),
                "", *HEAD)
    for fault in faults:
        yield f"| `{fault.name}` | {fault.kind.value} | {cells(kept.rows[fault.name], kept.modes)}"
    yield ""
    for fault in faults:
        unseen = "" if kept.rows[fault.name].is_found else f" Not found: {fault.unseen or 'why is not known'}."
        yield f"- `{fault.name}` ({fault.file}): {fault.harm}{unseen}"
