"""Where a collector's source is, is edited, and is built."""
from __future__ import annotations

import pathlib
import shlex
import shutil
import subprocess
from collections.abc import Sequence

from faults.planted import Collector, Fault

ADAPTERS = pathlib.Path(__file__).resolve().parent.parent / "adapters"
KEYS = "/usr/share/keyrings/debian-archive-keyring.gpg"
# The release that has the versions whose texts are edited.
SUITE = "bookworm"


class Failed(Exception):
    """A source can't be fetched, edited or built, or the judge can't be run."""


def run(command: str, folder: pathlib.Path) -> None:
    """Runs a command of the shell, which has to succeed."""
    done = subprocess.run(command, shell=True, cwd=folder, stdin=subprocess.DEVNULL, stdout=subprocess.PIPE,
                          stderr=subprocess.STDOUT, text=True, errors="replace", check=False)
    if done.returncode != 0:
        raise Failed(f"`{command}` failed: {done.stdout[-2000:]}")


def fetch(packages: Sequence[str], folder: pathlib.Path) -> None:
    """Gets the sources that aren't there yet, by a list of sources of its own."""
    sources = folder / "sources"
    (sources / "lists/partial").mkdir(parents=True, exist_ok=True)
    missing = [package for package in packages if not list(sources.glob(f"{package}_*.dsc"))]
    if not missing:
        return
    (sources / "list").write_text(f"deb-src [signed-by={KEYS}] http://deb.debian.org/debian {SUITE} main\n")
    apt = ("apt-get -q -o Dir::Etc::SourceParts=- -o Dir::Etc::SourceList=\"$PWD/list\" "
           "-o Dir::State::Lists=\"$PWD/lists\" -o Dir::Cache::PkgCache= -o Dir::Cache::SrcPkgCache= "
           "-o APT::Sandbox::User=root")
    run(f"{apt} update", sources)
    run(f"{apt} source {' '.join(missing)}", sources)


class Workshop:
    """A copy of the source in which one fault at a time is planted. With flags for the C compiler it is a copy of its
    own."""

    def __init__(self, collector: Collector, folder: pathlib.Path, flags: str = "") -> None:
        self.collector, self.flags = collector, flags
        self.pristine = next(it for it in (folder / "sources").glob(f"{collector.package}-*") if it.is_dir())
        self.room = folder / (f"{collector.name}-flags" if flags else collector.name)
        self.tree, self.built = self.room / "tree", self.room / "built"

    def run(self, commands: Sequence[str]) -> None:
        folders = {"tree": self.tree, "built": self.built, "here": ADAPTERS}
        quoted = {name: shlex.quote(str(path)) for name, path in folders.items()}
        for command in commands:
            run(command.format(**quoted, flags=self.flags), self.tree)

    def prepare(self) -> None:
        """Makes the copy, if there is none yet."""
        mark = self.built / "prepared"
        if mark.exists():
            return
        shutil.rmtree(self.tree, ignore_errors=True)
        shutil.copytree(self.pristine, self.tree, symlinks=True)
        self.built.mkdir(parents=True, exist_ok=True)
        self.run(self.collector.prepares)
        mark.touch()

    def edited(self, file: str, fault: Fault | None) -> str:
        text = (self.pristine / file).read_text(errors="surrogateescape")
        if fault is None or fault.file != file:
            return text
        if text.count(fault.old) != 1:
            raise Failed(f"{fault.name}: its text occurs {text.count(fault.old)} times in {file}")
        return text.replace(fault.old, fault.new)

    def plant(self, fault: Fault | None) -> None:
        """Lets the copy have this fault and no other."""
        for file in sorted({each.file for each in self.collector.faults}):
            text, path = self.edited(file, fault), self.tree / file
            if path.read_text(errors="surrogateescape") != text:
                path.write_text(text, errors="surrogateescape")

    def build(self, fault: Fault | None) -> None:
        self.plant(fault)
        self.run(self.collector.builds)

    def restore(self) -> None:
        self.plant(None)

    def version(self) -> str:
        """What the distribution calls this version."""
        with open(self.pristine / "debian/changelog", encoding="utf-8") as changelog:
            return changelog.readline().split("(")[1].split(")")[0]
