"""Short logs in the forms of several versions, with the pauses that they mean, and texts that are refused."""
from __future__ import annotations

import struct
from dataclasses import dataclass


@dataclass(frozen=True)
class Text:
    """A log of a kind, what it is read as, and what it leaves in doubt."""
    kind: str
    log: str | bytes
    pauses: str
    doubts: tuple[str, ...] = ()


@dataclass(frozen=True)
class Wrong:
    """A log that isn't of a kind, and why."""
    kind: str
    log: str | bytes
    why: str


def data_of(log: str | bytes) -> bytes:
    return log.encode() if isinstance(log, str) else log


def eventlog(*events: tuple[int, int, bytes]) -> bytes:
    """An event log of OCaml: of each event its time, its kind, and what follows."""
    header = struct.pack("<IHH", 0xC1FC1FC1, 1, 0)
    return header + b"".join(struct.pack("<QII", time, 77, kind) + body for time, kind, body in events)


# Phases 5 and 6, as what follows an event.
FIVE, SIX = b"\x05\x00", b"\x06\x00"

SAFEPOINT = '[safepoint] Safepoint "Cleanup", Time since last: 50 ns, Reaching safepoint: 3 ns, '
OVERLAP = "pauses that begin before another ends, by {} ns in all, joined to it: 1"

TEXTS = (
    # JDK 13 to 16, JDK 17 to 21, and JDK 24.
    Text("java", SAFEPOINT + "At safepoint: 4 ns, Total: 7 ns\n", "mutator 50\ncollector 7\n"),
    Text("java", SAFEPOINT + "Cleanup: 1 ns, At safepoint: 4 ns, Total: 8 ns\n", "mutator 50\ncollector 8\n"),
    Text("java", SAFEPOINT + "At safepoint: 4 ns, Leaving safepoint: 2 ns, Total: 9 ns, "
                             "Threads: 0 runnable, 11 total\n", "mutator 50\ncollector 9\n"),
    Text("java", "[gc] Using G1\n" + SAFEPOINT + "At safepoint: 4 ns, Total: 9 ns\n", "mutator 50\ncollector 9\n",
         ("totals that aren't the sum of their parts: 1",)),
    # The usual stamps; those of a language that writes commas; times of day beside them; two generations.
    Text("java-gc", "[0.005s][info][gc] Using Serial\n"
                    "[0.080s][info][gc] GC(0) Pause Full (System.gc()) 9M->1M(9M) 3.500ms\n[0.090s][info][gc] end\n",
         "mutator 76500000\ncollector 3500000\nmutator 10000000\n"),
    Text("java-gc", "[0,080s] GC(0) Pause Remark 9M->1M(9M) 3,500ms\n", "mutator 76500000\ncollector 3500000\n"),
    Text("java-gc", "[2026-11-28T10:00:00.000+0000][1795860000000ms][7000ns] "
                    "GC(0) Y: Pause Mark Start (Major) 0.002ms\n",
         "mutator 5000\ncollector 2000\n"),
    Text("java-gc", "[9ms][gc,start] GC(0) Pause Young (Normal)\n"
                    "[10ms][gc] GC(0) Pause Young (Normal) 9M->1M(9M) 1.000ms\n",
         "mutator 9000000\ncollector 1000000\n"),
    Text("java-gc", "[1ms] GC(0) Pause Remark 1.500ms\n[3ms] GC(0) Pause Cleanup 2.500ms\n", "collector 3000000\n",
         ("pauses that begin before the log, cut there: 1", OVERLAP.format(500000))),
    # Go 1.19 and Go 1.21.
    Text("go", "5 ProcStart p=-1 g=0 off=1 thread=3\n7 GCSTWStart p=0 g=4 off=2 kindid=1 kind=sweep termination\n"
               "9 GCSTWDone p=0 g=4 off=3\n12 GoEnd p=0 g=4 off=4\n", "mutator 2\ncollector 2\nmutator 3\n"),
    Text("go", "5 STWStart p=0 g=4 stk=2 kindid=1 kind=GC mark termination\n9 STWDone p=0 g=4 stk=3\n",
         "collector 4\n"),
    Text("go", "5 GoStart p=0 g=1 off=1\n7 GCMarkAssistStart p=0 g=1 off=2\n9 GCMarkAssistDone p=0 g=1 off=3\n"
               "11 GCSTWStart p=0 g=1 off=4\n14 GoEnd p=0 g=1 off=5\n", "mutator 6\ncollector 3\n",
         ("pauses without an end, which end with the log: 1",)),
    Text("go-goroutine", "5 GoStart p=0 g=1 off=1\n6 GCSweepDone p=0 g=1 off=1\n7 GCMarkAssistStart p=0 g=1 off=2\n"
                         "8 GCMarkAssistStart p=1 g=2 off=2\n9 GCMarkAssistDone p=0 g=1 off=3\n",
         "collector 1\nmutator 1\ncollector 2\n", ("pauses without a beginning, which begin with the log: 1",)),
    Text("go-gctrace", "hello\ngc 1 @0.002s 3%: 0.010+1.5+0.020 ms clock, 0+0/0/0+0 ms cpu, 4->4->0 MB, 4 P\n"
                       "gc 3 @0.003s 3%: 0.010+15+0.020 ms clock, 0+0/0/0+0 ms cpu, 4->4->0 MB, 4 P (forced)\n",
         "mutator 2000000\ncollector 10000\nmutator 990000\ncollector 10000\nmutator 500000\ncollector 20000\n"
         "mutator 14480000\ncollector 20000\n", ("cycles missing by their numbers: 1",)),
    # A phase within another, a counter, blocks that were made, the writing of the log, and a phase alone.
    Text("ocaml", eventlog((3, 2, bytes(10)), (10, 0, FIVE), (12, 0, SIX), (15, 1, SIX), (20, 1, FIVE),
                           (21, 3, bytes(9)), (30, 4, struct.pack("<Q", 4)), (40, 0, SIX), (41, 1, SIX),
                           (50, 2, bytes(10))),
         "mutator 10\ncollector 10\nmutator 20\ncollector 1\nmutator 9\n",
         ("writings of the log itself, 4 ns in all, that count as what they interrupted: 1",)),
    Text("node", "# by a program\ngc 0.5 0.25 minor\n\ngc 1 1e-3 major\ngc 1.0005 0.001 major\nend 2.5\n",
         "mutator 500000\ncollector 250000\nmutator 250000\ncollector 1500\nmutator 1498500\n", (OVERLAP.format(500),)),
    Text("node", "gc 1 0.5 minor\ngc 3 0.5 minor\nend 2\n", "mutator 1000000\ncollector 500000\nmutator 500000\n",
         ("pauses after the end, left out: 1",)),
    # V8 of Node 20 and of Node 24.
    Text("node-trace-gc", "hello\n"
                          "[1:0x2a]      9 ms: Scavenge 3.9 (4.0) -> 3.7 (5.0) MB, 1.50 / 0.00 ms  (average mu = 1.0)\n"
                          "[1:0x2a]       12 ms: [IncrementalMarking] Start\n"
                          "[1:0x2a]       20 ms: Mark-Compact 9.1 (9.2) -> 8 (9.0) MB, pooled: 0 MB, 2.00 / 0.00 ms  "
                          "(+ 3.2 ms in 12 steps since start of marking) (average mu = 1.0)\n",
         "mutator 7500000\ncollector 1500000\nmutator 9000000\ncollector 2000000\n",
         ("steps of marking without a time, 3200000 ns in all, that count as the mutator's: 12",)),
    Text("node-nvp", "[1:0x2a] 70 ms: pause=1.5 mutator=7.0 gc=s incremental.steps_count=7 incremental.steps_took=9.0\n"
                     "[1:0x2a] 91 ms: pause=1.0 mutator=2171616.4 gc=mc incremental=0.0 heap=1 incremental=2.5 "
                     "incremental.finalize=0.0 incremental_longest_step=1.5 incremental_steps_count=7 x=1\n"
                     "[1:0x2a] 99 ms: pause=2.0 mutator=7.0 gc=s x=0\n"
                     "[1:0x2a] 110 ms: pause=1.0 mutator=2.0 gc=s x=0\n",
         "mutator 7000000\ncollector 1500000\nmutator 20000000\ncollector 1000000\nmutator 7000000\ncollector 2000000\n"
         "mutator 10000000\ncollector 1000000\n",
         ("times of the mutator that can't be, replaced by the stamps of their lines: 2",
          "steps of marking without a time, 2500000 ns in all, that count as the mutator's: 7")),
)

WRONGS = (
    Wrong("java", "[gc] Using G1\n" + SAFEPOINT + "Total: x\n", "line 2: no line of a safepoint"),
    Wrong("java", SAFEPOINT + "At safepoint: 4 ns, Total: 7 ns", "line 1 has no newline: the log was cut"),
    Wrong("java", "[1s] Total time for which application threads were stopped: 0.1 seconds\n",
          "line 1: JDK 13 and later"),
    Wrong("java", "[gc] Using G1\n", "no pause was found: java is a log made by"),
    Wrong("java", "", "no pause was found"),
    Wrong("java-gc", "[gc] GC(0) Pause Remark 1.000ms\n", "line 1: no time since the start"),
    Wrong("java-gc", "[5ms] GC(0) Pause Remark\n[6ms] GC(1) Pause Remark 1.000ms\n", "line 1: a pause begins"),
    Wrong("go", "M=1 P=0 G=1 StateTransition Time=1\n", "line 1: no event as"),
    Wrong("go", "5 GCSTWStart p=0 g=4 off=2\n4 GCSTWDone p=0 g=4 off=3\n", "line 2: an event before"),
    Wrong("go", "5 GCSTWStart p=0 g=4 off=2\n6 GCSTWStart p=0 g=4 off=3\n", "line 2: it begins twice"),
    Wrong("go", "5 GCSTWDone p=0 g=4 off=2\n6 GCSTWDone p=0 g=4 off=3\n", "line 2: it ends twice"),
    Wrong("go-gctrace", "gc 1 @0.002s 3%: 0.010+1.5\n", "line 1: no line of a cycle"),
    Wrong("go-gctrace", "gc 1 @0.002s 3%: 1+1+1 ms clock, x\n" * 2, "line 2: a cycle before 2"),
    Wrong("ocaml", "gc 1\n", "byte 0: no event log"),
    Wrong("ocaml", eventlog((3, 5, b"")), "byte 8: an event of the unknown kind 5"),
    Wrong("ocaml", eventlog((3, 0, FIVE), (4, 1, FIVE))[:-1], "byte 26: an event without its end"),
    Wrong("ocaml", eventlog((3, 0, FIVE), (4, 1, FIVE))[:-3], "byte 26: an event without its end"),
    Wrong("ocaml", eventlog((3, 0, FIVE), (4, 1, SIX)), "byte 26: phase 6 is left in phase 5"),
    Wrong("ocaml", eventlog((3, 1, FIVE)), "byte 8: phase 5 is left in no phase"),
    Wrong("ocaml", eventlog((3, 0, FIVE), (2, 1, FIVE)), "byte 26: an event before"),
    Wrong("ocaml", eventlog((3, 0, FIVE), (4, 0, SIX), (5, 1, SIX)), "byte 62: the log ends in a phase"),
    Wrong("node", "gc 1 1 minor\ngc x\n", "line 2: no line `gc START LENGTH KIND`"),
    Wrong("node", "end 1\ngc 1 1 minor\n", "line 2: no line"),
    Wrong("node-nvp", "[1:0x2a] 9 ms: Scavenge 3.9 (4.0) -> 3.7 (5.0) MB, 1.50 / 0.00 ms  x\n",
          "line 1: no line of --trace-gc-nvp"),
    Wrong("node-trace-gc", "[1:0x2a] 9 ms: pause=1.5 mutator=7.0\n", "line 1: no line of --trace-gc"),
    Wrong("node-trace-gc", "[1:0x2a] 9 ms: Scavenge 3 -> 3 MB, 1.50 / 0.00 ms  x\n[1:0x2b] 9 ms: Scavenge 3\n",
          "line 2: a heap beside 1:0x2a"),
)
