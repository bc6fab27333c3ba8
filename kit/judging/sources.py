"""Where scripts come from, and in which order they are judged."""
from __future__ import annotations

import argparse
import functools
import pathlib
from collections.abc import Callable, Iterator, Sequence
from dataclasses import dataclass

from judging.comparing import Asked, Judge, Reference, ReferenceFailure
from judging.modes import Mode
from judging.options import NONE, TURNS, Usage
from judging.programs import Protocol
from judging.scripts import Case, Mark, Script, read_cases, read_file, read_plain

DEFAULT_SEEDS = range(1, 21)
# So large a heap is never full, or nearly never; where it is, a script ends.
MOST_PAGES = 4096


@dataclass(frozen=True)
class Prepared:
    """A script that can be asked. One whose replies are those of this very collector isn't, unless it is asked for."""
    asked: Asked | None
    # The rule that the script says it shows, if it says one.
    rule: str


def prepared(case: Case, judge: Judge) -> Prepared:
    is_left_out = case.mark is Mark.EXACT and not judge.is_exact
    return Prepared(None if is_left_out else judge.prepared(case), case.rule)


@dataclass(frozen=True)
class Source:
    """A script that is to be judged in a mode, made and prepared when it is its turn."""
    name: str
    mode: Mode
    prepare: Callable[[Judge], Prepared]
    # The file of several scripts that this is one of, if it is, and of how many.
    file: str = ""
    together: int = 0

    @property
    def title(self) -> str:
        return f"{self.name}, mode {self.mode.name}" if self.mode.name else self.name


@dataclass(frozen=True)
class Seeded:
    """What generated scripts are made from: their seeds, and words of `generate`."""
    seeds: range
    words: Sequence[str]
    profile: str | None

    def profile_of(self, seed: int) -> str:
        return self.profile or TURNS[(seed - 1) % len(TURNS)]

    def script(self, seed: int, reference: Reference) -> Script:
        return reference.generated(["--seed", str(seed), "--profile", self.profile_of(seed), *self.words])

    def source(self, seed: int, modes: Sequence[Mode]) -> Source:
        """The script of a seed. Modes take turns, and so that each comes to each profile."""
        mode = modes[sum(divmod(seed - 1, len(TURNS))) % len(modes)]
        return Source(f"seed {seed} of profile {self.profile_of(seed)}", mode,
                      lambda judge: prepared(Case(self.script(seed, judge.reference)), judge))


@dataclass(frozen=True)
class Given:
    """The scripts of a file. If there are several one process gets them all, and no others."""
    name: str
    cases: Sequence[Case]

    def sources(self, mode: Mode, prepares: Sequence[Callable[[Judge], Prepared]]) -> Iterator[Source]:
        if len(prepares) == 1:
            yield Source(self.name, mode, prepares[0])
            return
        for number, prepare in enumerate(prepares, 1):
            yield Source(f"{self.name}, script {number}", mode, prepare, self.name, len(prepares))


@dataclass(frozen=True)
class Sources:
    """Scripts that are there, each in all modes, and then those that are generated."""
    given: Sequence[Given]
    seeded: Seeded
    modes: Sequence[Mode]

    def __len__(self) -> int:
        return sum(len(it.cases) for it in self.given) * len(self.modes) + len(self.seeded.seeds)

    def __iter__(self) -> Iterator[Source]:
        for it in self.given:
            # Each script is prepared once for all modes.
            prepares = [functools.lru_cache(functools.partial(prepared, case)) for case in it.cases]
            for mode in self.modes:
                yield from it.sources(mode, prepares)
        yield from (self.seeded.source(seed, self.modes) for seed in self.seeded.seeds)

    def require(self, judge: Judge) -> None:
        """What can't be asked for is known before any script is judged."""
        if not len(self):
            raise Usage("there is no script to judge by")
        several = [it.name for it in self.given if len(it.cases) > 1]
        if several and judge.protocol is not Protocol.MANY:
            raise Usage(f"{several[0]} has several scripts, which one process gets: ask it by --protocol "
                        f"{Protocol.MANY.value}")
        try:
            if self.seeded.seeds:
                judge.reference.generated(["--seed", "1", "--events", "1"])
        except ReferenceFailure:
            raise Usage(f"{' '.join(judge.reference.words)} makes no scripts from seeds, as `metroheap generate` does: "
                        f"ask for none by --seeds {NONE}") from None


def conformance_folders(options: argparse.Namespace, default: pathlib.Path) -> list[pathlib.Path]:
    if not options.conformance:
        return [default] if default.is_dir() and not options.script else []
    folders = [pathlib.Path(name) for name in options.conformance if name != NONE]
    for folder in folders:
        if not folder.is_dir():
            raise Usage(f"{folder} is no folder")
    return folders


def conformance_files(folder: pathlib.Path) -> list[Given]:
    paths = sorted(folder.rglob("*.script"), key=lambda path: path.relative_to(folder).parts)
    return [Given(path.relative_to(folder).as_posix(), read_file(path, read_cases)) for path in paths]


def conformance_cases(folder: pathlib.Path) -> list[tuple[str, Case]]:
    """The scripts of such files, with their names."""
    return [(it.name, case) for it in conformance_files(folder) for case in it.cases]


def sources_of(options: argparse.Namespace, conformance: pathlib.Path, modes: Sequence[Mode]) -> Sources:
    """All scripts that are asked for. Files are read at once, so that a bad one is known before any is judged."""
    try:
        given = [Given(name, read_file(pathlib.Path(name), read_plain)) for name in options.script]
        folders = conformance_folders(options, conformance)
        stated = [it for folder in folders for it in conformance_files(folder)]
    except OSError as error:
        raise Usage(f"{error.filename}: {error.strerror}") from None
    seeds = options.seeds
    if seeds is None:
        seeds = range(0) if options.script else DEFAULT_SEEDS
    words = ["--events", str(options.events), *([] if options.exact else ["--pages", str(MOST_PAGES)])]
    return Sources([*given, *stated], Seeded(seeds, words, options.profile), modes)
