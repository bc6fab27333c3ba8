"""What was counted of collectors: kept, checked against what is said of their places, and written as a page."""
from __future__ import annotations

import json
import pathlib
from collections.abc import Iterator, Mapping, Sequence
from dataclasses import asdict, dataclass

from faults.counts import Counted, Function, Line
from faults.covering import FILES
from faults.judging import IN_TURN
from faults.places import Place, Plan, Reason, Source
from faults.workshop import Failed

HEADER = (
    "Written by `kit/coverage`. Each collector was built with counters for its lines, and its adapter answered "
    "scripts in all modes. The tables say how often each place of the collector was run meanwhile. Generated scripts "
    "have 10,000 events, and 2,000 where a collection takes long (CPython, Ruby, Racket CS, Go). Those of `fans` have "
    "43,000.",
    "A place is a function, or a few lines of one that have a row of their own: these begin at the line with the "
    "text that is shown, or so many lines behind it. A function's lines are those without a row of their own. `runs` "
    "counts calls of a function, or runs of the first line. A line of a row of its own counts as never run if a part "
    "of it never was.",
    "Java has no table: the collectors of HotSpot are counted only if the whole JDK is built with counters (`configure "
    "--enable-native-coverage`), which isn't done here.")
HEAD = ("| place | what it is | runs | lines never run | why |", "|---|---|---|---|---|")


@dataclass(frozen=True)
class Row:
    """What was counted of a place, and where it begins."""
    place: Place
    start: int
    runs: int
    # How many lines it has, and how many of them were never run.
    lines: int
    unrun: int

    def complaint(self) -> str:
        """What is wrong with what is said of the place."""
        if self.is_unrun and not self.place.unrun:
            return f"{self.unrun} of {self.lines} lines were never run, and no reason is given"
        if self.place.unrun and not self.is_unrun and Reason.TIMING not in self.place.unrun:
            return "all lines were run, and a reason is given why not"
        if self.place.most is not None and self.unrun > self.place.most:
            return f"{self.unrun} of {self.lines} lines were never run, and the reason is that of {self.place.most}"
        return ""

    @property
    def is_unrun(self) -> bool:
        return self.unrun > 0 or self.runs == 0

    def cells(self) -> str:
        why = " ".join(each.value if isinstance(each, Reason) else each for each in self.place.unrun)
        unrun = "all" if self.unrun == self.lines else str(self.unrun) if self.unrun else ""
        name = self.place.name.strip().replace("|", "\\|")
        behind = f" + {self.place.behind} lines" if self.place.behind else ""
        return f"| `{name}`{behind} | {self.place.what.value} | {self.runs} | {unrun} | {why} |"


class Places:
    """The rows of a file of the source, and what is wrong with what is said of them."""

    def __init__(self, source: Source, text: str, functions: Mapping[str, Function]) -> None:
        self.source, self.text, self.functions = source, text.splitlines(), functions
        self.complaints: list[str] = []
        self.own = {number for place in source.places if place.lines for number in self.numbers(place)}
        rows = [row for place in source.places if (row := self.row(place))]
        self.rows = sorted(rows, key=lambda row: (row.start, row.place.lines))
        self.complaints += [f"{source.file}: {row.place.name.strip()}: {complaint}" for row in self.rows
                            if (complaint := row.complaint())]
        self.complain_of_missing()

    def numbers(self, place: Place) -> range:
        """The numbers of the lines of a place that is smaller than a function."""
        found = [number for number, line in enumerate(self.text, 1) if place.name in line]
        if len(found) != 1:
            return range(0)
        start = found[0] + place.behind
        return range(start, start + place.lines)

    def row(self, place: Place) -> Row | None:
        row = self.row_of_lines(place) if place.lines else self.row_of_function(place)
        if row is None:
            what = "line with this text, or several" if place.lines else "function that is compiled"
            self.complaints.append(f"{self.source.file}: {place.name.strip()}: there is no such {what}")
        return row

    def row_of_function(self, place: Place) -> Row | None:
        if place.name not in self.functions:
            return None
        function = self.functions[place.name]
        lines = [line for number, line in function.lines.items() if number not in self.own]
        return Row(place, function.start, function.runs, len(lines), sum(line.runs == 0 for line in lines))

    def row_of_lines(self, place: Place) -> Row | None:
        numbers = self.numbers(place)
        counted: dict[int, Line] = {number: line for function in self.functions.values()
                                    for number, line in function.lines.items() if number in numbers}
        if not counted:
            return None
        unrun = sum(line.runs == 0 or line.is_part for line in counted.values())
        return Row(place, numbers[0], counted[min(counted)].runs, len(counted), unrun)

    def complain_of_missing(self) -> None:
        if not self.source.is_whole:
            return
        for name in sorted(self.functions.keys() - {place.name for place in self.source.places}):
            self.complaints.append(f"{self.source.file}: {name}: the list of places has no such function")


class Coverage:
    """What was counted in this run, and in those before in the same folder."""

    def __init__(self, folder: pathlib.Path, plans: Sequence[Plan]) -> None:
        self.folder, self.plans = folder, plans

    def kept_at(self, plan: Plan) -> pathlib.Path:
        return self.folder / f"{plan.name}-lines.json"

    def keep(self, plan: Plan, counted: Counted) -> None:
        self.kept_at(plan).write_text(json.dumps(asdict(counted)) + "\n")

    def counted(self, plan: Plan) -> Counted | None:
        path = self.kept_at(plan)
        return Counted.read(json.loads(path.read_text())) if path.exists() else None

    def places(self, plan: Plan, counted: Counted, tree: pathlib.Path) -> list[Places]:
        return [Places(source, (tree / source.file).read_text(errors="replace"), counted.files[source.file])
                for source in plan.sources if source.file in counted.files]

    def tables(self) -> Iterator[tuple[Plan, Counted, list[Places]]]:
        """The rows of each collector that was counted."""
        for plan in self.plans:
            counted = self.counted(plan)
            if counted is not None:
                yield plan, counted, self.places(plan, counted, self.tree_of(plan))

    def tree_of(self, plan: Plan) -> pathlib.Path:
        tree = self.folder / f"{plan.name}-flags/tree"
        if not tree.is_dir():
            raise Failed(f"{tree} is gone, and with it what was counted")
        return tree

    def complaints(self) -> list[str]:
        return [f"{plan.name}: {complaint}" for plan, _, places in self.tables() for each in places
                for complaint in each.complaints]

    def page(self) -> str:
        tables = list(self.tables())
        return "\n".join([*head(tables), *(line for table in tables for line in section(*table))]) + "\n"


def head(tables: Sequence[tuple[Plan, Counted, list[Places]]]) -> Iterator[str]:
    """How many places of each collector were run."""
    yield from ("# How often each place of a collector is run", "")
    for paragraph in HEADER:
        yield from (paragraph, "")
    yield "| collector | date | places | run in all lines | in part | never |"
    yield "|---|---|---|---|---|---|"
    for plan, counted, places in tables:
        rows = [row for each in places for row in each.rows]
        never = sum(row.runs == 0 for row in rows)
        part = sum(row.is_unrun for row in rows) - never
        yield (f"| {plan.name} {counted.version} | {counted.day} | {len(rows)} | {len(rows) - part - never} | {part} "
               f"| {never} |")


def section(plan: Plan, counted: Counted, places: Sequence[Places]) -> Iterator[str]:
    files = counted.scripts[FILES]
    scripts = ", ".join(f"{count} with {'profiles in turn' if name == IN_TURN else f'profile `{name}`'}"
                        for name, count in counted.scripts.items() if name != FILES)
    yield from ("", f"## {plan.name} {counted.version}", "", f"Its adapter has {counted.modes} modes. It answered "
                f"{files} conformance files in each, and the modes took turns at generated scripts: {scripts}.")
    for each in places:
        part = "" if each.source.is_whole else ", what serves the collector"
        yield from ("", f"### {each.source.file}{part}", "", *HEAD, *(row.cells() for row in each.rows))
