"""Builds an author's own source tree of a collector, or that of Debian with a patch, as faults are built."""
from __future__ import annotations

import pathlib
import shlex
import shutil
import subprocess
from collections.abc import Iterable, Iterator
from dataclasses import dataclass

from adapters.known import header
from faults.cpython import CPYTHON
from faults.libgc import LIBGC
from faults.lua import LUA
from faults.ocaml import OCAML
from faults.planted import Collector
from faults.workshop import KEYS, Failed, Workshop, fetch, run
from judging.options import Usage


@dataclass(frozen=True)
class Need:
    """A command of the shell that fails where something is missing, and Debian's package that has it."""
    probe: str
    package: str


C = Need(header("stdio.h"), "gcc libc6-dev")
MAKE = Need("make --version", "make")
PATCH = Need("patch --version", "patch")
OCAMLOPT = Need("ocamlopt -version", "ocaml-nox")
# What Debian's sources are fetched by.
FETCHING = (Need("apt-get --version", "apt"), Need("dpkg-source --version", "dpkg-dev"),
            Need(f"test -r {KEYS}", "debian-archive-keyring"))


@dataclass(frozen=True)
class Tree:
    """A collector of which any source tree can be built, and by which file of it, and no other's, that is known. What
    authors have may be the folder `inner` of what is released."""
    collector: Collector
    mark: str
    needs: tuple[Need, ...]
    inner: str = "."

    @property
    def name(self) -> str:
        return self.collector.name

    def place(self, folder: pathlib.Path) -> str | None:
        """Where a folder stands in a released tree. None if it is of another collector."""
        mark = pathlib.Path(self.mark)
        return next((place for place in (".", self.inner) if (folder / mark.relative_to(place)).is_file()), None)


TREES = (Tree(LUA, "src/lgc.c", (C,), "src"), Tree(LIBGC, "extra/gc.c", (C,)),
         Tree(OCAML, "runtime/caml/major_gc.h", (C, MAKE, OCAMLOPT)), Tree(CPYTHON, "Include/Python.h", (C, MAKE)))
# What is left out of a copy, so that all is compiled anew.
LEFT_OUT = shutil.ignore_patterns(".git", "*.o", "*.a")


@dataclass(frozen=True)
class Order:
    """What is to be built: a source tree, or else that of Debian, with or without a patch."""
    tree: Tree
    source: pathlib.Path | None
    patch: pathlib.Path | None

    def needs(self) -> Iterator[Need]:
        yield from self.tree.needs
        yield from () if self.source else FETCHING
        yield from (PATCH,) if self.patch else ()


def order_of(name: str | None, source: str | None, patch: str | None) -> Order:
    """What the command line asks for. Which collector a source tree is of is known by its files."""
    names = ", ".join(tree.name for tree in TREES)
    known = [tree for tree in TREES if name in (None, tree.name)]
    if not known:
        raise Usage(f"{name} isn't built of its source; these are: {names}")
    if patch is not None and not pathlib.Path(patch).is_file():
        raise Usage(f"there is no file {patch}")
    if source is None and name is None:
        raise Usage(f"of which collector is the source that is patched? One of {names}")
    if source is not None and not pathlib.Path(source).is_dir():
        raise Usage(f"there is no folder {source}")
    found = next((tree for tree in known if source is None or tree.place(pathlib.Path(source))), None)
    if found is None:
        marks = ", ".join(f"{tree.mark} ({tree.name})" for tree in known)
        raise Usage(f"{source} is no source tree that can be built: it has no file {marks}")
    return Order(found, source and pathlib.Path(source).resolve(), patch and pathlib.Path(patch).resolve())


def is_there(need: Need) -> bool:
    done = subprocess.run(need.probe, shell=True, stdin=subprocess.DEVNULL, capture_output=True, check=False)
    return done.returncode == 0


def require(needs: Iterable[Need]) -> None:
    """Names all packages at once that are missing."""
    missing = [need.package for need in needs if not is_there(need)]
    if missing:
        raise Failed(f"before anything can be compiled: `apt-get install {' '.join(missing)}`")


def require_release(source: pathlib.Path) -> None:
    """The runtime of OCaml has to be of the release whose compiler links the adapter."""
    version = source / "VERSION"
    own = version.read_text().split()[:1] if version.is_file() else []
    linked = subprocess.run(["ocamlopt", "-version"], capture_output=True, text=True, check=True).stdout.split()
    if own != linked:
        raise Failed(f"the source is of OCaml {' '.join(own) or 'without VERSION'}, and `ocamlopt`, which links the "
                     f"adapter, of {' '.join(linked)}")


def source_of(order: Order, folder: pathlib.Path) -> pathlib.Path:
    """A copy of the source in a folder for all work, with the patch. That of an earlier run is removed."""
    package, room = order.tree.collector.package, folder / "own"
    own = room / f"sources/{package}-own"
    if room.exists() and not (room / "sources").is_dir():
        raise Failed(f"{room} is there, and not of an earlier run")
    shutil.rmtree(room, ignore_errors=True)
    if order.source is None:
        fetch([package], folder)
    source = order.source or next(it for it in (folder / "sources").glob(f"{package}-*") if it.is_dir())
    copy = own / order.tree.place(source)
    shutil.copytree(source, copy, symlinks=True, ignore=LEFT_OUT)
    if order.patch is not None:
        run(f"patch -p1 --forward < {shlex.quote(str(order.patch))}", copy)
    return own


def build(order: Order, folder: pathlib.Path) -> pathlib.Path:
    """Builds what is asked for in a folder, and returns that of the programs."""
    if order.source in (folder, *folder.parents):
        raise Usage(f"{folder} lies within the source tree that is copied there")
    require(order.needs())
    source = source_of(order, folder)
    if order.tree.collector is OCAML:
        require_release(source)
    workshop = Workshop(order.tree.collector, folder / "own")
    workshop.prepare()
    workshop.run(order.tree.collector.builds)
    return workshop.built
