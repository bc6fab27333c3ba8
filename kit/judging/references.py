"""Where the reference program is, and what can stand in its place where there is none."""
from __future__ import annotations

import pathlib

TOP = pathlib.Path(__file__).resolve().parent.parent.parent
# Where the repository builds the program, and where it is installed beside the judge.
PROGRAMS = (TOP / "crates/metroheap/out/metroheap", TOP.parent.parent / "bin/metroheap")
# What can stand where the program does, without the toolchain: by Python, and by a Rust compiler.
COLLECTOR = TOP / "kit/wrong/collector"
PLAIN = TOP / "bench/plain.rs"


def default_program() -> str:
    return next((str(path) for path in PROGRAMS if path.exists()), "metroheap")


def other_references(asked: str = "--reference {} --seeds none") -> str:
    """How a reference program is had where there is none. `asked` are the words by which another one is asked for."""
    if not COLLECTOR.exists():
        return f"scripts/install installs it, and {asked.split()[0]} names one that is elsewhere"
    if not PLAIN.exists():
        return f"scripts/install installs it; {asked.format(COLLECTOR)} does without it, in Python"
    collector, plain = (path.relative_to(TOP) for path in (COLLECTOR, PLAIN))
    return (f"`rt run -- run < stdin` in crates/metroheap builds it; {asked.format(collector)} does without it, in "
            f"Python; so does {asked.format('./plain')}, faster, after `rustc --edition 2024 -O -o plain {plain}` "
            f"(paths from {TOP})")
