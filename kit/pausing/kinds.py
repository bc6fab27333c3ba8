"""The kinds of logs that are read: what makes each, how exact it is, and what it lacks."""
from __future__ import annotations

from collections.abc import Callable
from dataclasses import dataclass

from pausing import go, java, node, ocaml
from pausing.runs import Reading, Refused


@dataclass(frozen=True)
class Kind:
    """A kind of log."""
    name: str
    log: str
    made_by: str
    resolution: str
    lacks: str
    reader: Callable[[bytes], Reading]

    def read(self, data: bytes) -> Reading:
        reading = self.reader(data)
        if not reading.pauses:
            raise Refused(f"no pause was found: {self.name} is a log made by {self.made_by}")
        return reading

    def written(self, reading: Reading) -> str:
        """The log of pauses of what was read."""
        lines = [f"# {self.name}, ns: {self.log}", *(f"{who} {units}" for who, units in reading.runs)]
        return "".join(f"{line}\n" for line in lines)


KINDS = {kind.name: kind for kind in (
    Kind("java", "safepoints of Java, JDK 13 and later", "java -Xlog:safepoint:file=LOG ..", "1 ns",
         "the time after the last pause", java.read_safepoints),
    Kind("java-gc", "pauses of Java's collectors, JDK 9 and later",
         "java -Xlog:gc:file=LOG:uptimenanos .., with ZGC -Xlog:gc*:..",
         "ends 1 ns, lengths 1 us; ends 1 ms with the usual stamps",
         "the way to the safepoint and out of it, and all stops that aren't the collector's", java.read_pauses),
    Kind("go", "the world stopped, Go up to 1.21", "runtime/trace in the program, then go tool trace -d TRACE", "1 ns",
         "what a goroutine marks and sweeps for the collector", go.read_stops),
    Kind("go-goroutine", "the world stopped, and what goroutine 1 assists and sweeps, Go up to 1.21", "as go", "1 ns",
         "the helps of other goroutines", go.read_goroutine),
    Kind("go-gctrace", "the two stops of each cycle of Go", "GODEBUG=gctrace=1 PROGRAM 2> LOG",
         "starts 1 ms, lengths 1 us to 1 ms", "assists, sweeps, and the time after the last pause", go.read_cycles),
    Kind("ocaml", "phases of the collector, OCaml 4.11 to 4.14",
         "ocamlopt -runtime-variant i .., then OCAML_EVENTLOG_ENABLED=1 PROGRAM", "1 ns",
         "nothing, but that runtime is slower, and writes the log within the run", ocaml.read_events),
    Kind("node", "entries of Node's PerformanceObserver", "PAUSES=LOG node --require kit/pausing/observer.js PROGRAM",
         "about 1 us", "steps of marking, and the last pauses of a program that ends itself", node.read_entries),
    Kind("node-nvp", "collections of V8 in Node", "node --trace-gc-nvp PROGRAM > LOG", "0.1 ms",
         "steps of marking, and the time after the last pause", node.read_named),
    Kind("node-trace-gc", "collections of V8 in Node", "node --trace-gc PROGRAM > LOG", "ends 1 ms, lengths 10 us",
         "steps of marking, and the time after the last pause", node.read_plain),
)}
# What no log has.
ALL_LACK = ("No log has what barriers and threads of the collector cost. By a clock, a pause and the time between two\n"
            "also have what other programs took of the processor. A log has to be that of one mutator.")


def described(kind: Kind) -> str:
    parts = (("made by", kind.made_by), ("resolution", kind.resolution), ("lacks", kind.lacks))
    return "\n".join([f"{kind.name}: {kind.log}", *(f"    {word:10}  {text}" for word, text in parts)])


def all_described() -> str:
    return "\n".join([*map(described, KINDS.values()), "", ALL_LACK])
