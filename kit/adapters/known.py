"""The adapters of kit/adapters: how each is built and run, and its modes."""
from __future__ import annotations

import pathlib
import shlex
import sys
from dataclasses import dataclass

HERE = pathlib.Path(__file__).resolve().parent


def command(text: str, built: str | pathlib.Path) -> list[str]:
    """The words of a command in a folder with what was built. A Python that is there stands before this one."""
    own = pathlib.Path(built) / "python"
    return shlex.split(text.format(here=HERE, built=built, python=own if own.exists() else sys.executable))


@dataclass(frozen=True)
class Mode:
    """A way to run an adapter. Commands have the folder of the adapters as {here}, of what was built as {built}, and
    Python as {python}."""
    name: str
    words: str
    # A command that fails where there is no such mode.
    probe: str = "true"
    # Whether it takes so long that it is judged with --all alone.
    is_slow: bool = False


@dataclass(frozen=True)
class Adapter:
    """How an adapter is built and run. In `program` two braces stand where the judge puts a mode's words."""
    name: str
    package: str
    # A command that fails where its compiler or its library isn't there.
    probe: str
    builds: tuple[str, ...]
    program: str
    modes: tuple[Mode, ...]
    # Whether a collection takes so long that only small scripts are judged without --all.
    is_dear: bool = False
    # Whether sessions are threads, so that it answers with logs.
    has_threads: bool = False


def header(name: str, folder: str = "/usr/include") -> str:
    return f"cc -I{folder} -fsyntax-only -include {name} -x c /dev/null"


LUA = Adapter("lua", "liblua5.4-dev", header("lua.h", "/usr/include/lua5.4"),
              ("cc -O2 -I/usr/include/lua5.4 -o {built}/lua lua.c lua_code.c lua_fields.c lua_numbers.c lua_roots.c "
               "lua_tables.c lua_weak.c front.c -llua5.4",), "{built}/lua", (
                  Mode("incremental", "incremental"),
                  Mode("incremental, few steps", "incremental 5"),
                  Mode("generational", "generational 3"),
                  Mode("switching", "switching"),
                  Mode("emergency", "emergency switching")))

LIBGC = Adapter("libgc", "libgc-dev", header("gc.h"),
                ("cc -O1 -o {built}/libgc libgc.c libgc_objects.c front.c -lgc",), "{built}/libgc", (
                    Mode("stopped", "stopped 3"),
                    Mode("protected", "protected"),
                    Mode("manual", "manual"),
                    Mode("manual, few steps", "manual inner 3")))


def ocaml(name: str, parameters: str, words: str, program: str = "ocaml") -> Mode:
    return Mode(name, f"OCAMLRUNPARAM=s=256,o=5,{parameters} {{built}}/{program} {words}")


OCAML_SOURCES = "{built}/ocaml_roots.o {built}/ocaml_items.ml {built}/ocaml_slots.ml {built}/adapter.ml"
OCAML_COMPILED = OCAML_SOURCES.replace(".ml", ".cmx")

# Each compiler writes its files beside the source, so that is a copy.
OCAML = Adapter("ocaml", "ocaml-nox", "ocamlopt -version",
                ("cp ocaml_items.ml ocaml_slots.ml {built}", "cp ocaml.ml {built}/adapter.ml",
                 "ocamlopt -c -o {built}/ocaml_roots.o ocaml_roots.c",
                 f"ocamlopt -I {{built}} -o {{built}}/ocaml {OCAML_SOURCES}",
                 f"ocamlopt -runtime-variant d -I {{built}} -o {{built}}/ocaml_debug {OCAML_COMPILED}"), "env {{}}", (
                     ocaml("natural", "h=256,i=256,O=100,a=2", "natural"),
                     ocaml("slices", "h=400k,i=256,a=2", "slices 10"),
                     ocaml("long slices, first fit", "h=256,i=256,a=1", "slices 50 3"),
                     ocaml("minor, next fit", "h=256,i=2k,a=0", "minor 3"),
                     ocaml("compacting", "h=400k,i=2k,a=2", "compacting"),
                     ocaml("debugging runtime", "h=256,i=256,a=2", "slices 20", "ocaml_debug")))


JAVA_COMMAND = ("java -Xmx96m -XX:+UnlockDiagnosticVMOptions -XX:+UnlockExperimentalVMOptions -XX:-UsePerfData "
                "-XX:TieredStopAtLevel=1")
VERIFIED = "-XX:+VerifyBeforeGC -XX:+VerifyAfterGC"
SHENANDOAH = "-XX:+UseShenandoahGC"
AGGRESSIVE = f"{SHENANDOAH} -XX:ShenandoahGCHeuristics=aggressive"
Z = "-XX:+UseZGC"
G1 = "-XX:+UseG1GC -XX:G1HeapRegionSize=1m -XX:+ExplicitGCInvokesConcurrent -XX:MaxTenuringThreshold=0"


def java(name: str, flags: str, words: str, is_slow: bool = False) -> Mode:
    return Mode(name, f"{flags} Adapter {words}", f"{JAVA_COMMAND} {flags} -version", is_slow)


JAVA = Adapter("java", "default-jdk-headless", "javac --release 17 -version", ("javac -d {built} Adapter.java Heap.java Item.java",),
               JAVA_COMMAND + " -cp {built} {{}}", (
                   java("serial", "-XX:+UseSerialGC -Xmn1m", "100000"),
                   java("serial, verified", f"-XX:+UseSerialGC -Xmn1m {VERIFIED}", "5000", is_slow=True),
                   java("parallel", "-XX:+UseParallelGC -Xmn2m", "100000"),
                   java("g1", G1, "always 20000"),
                   java("g1, verified", f"{G1} {VERIFIED}", "always 20000", is_slow=True),
                   java("shenandoah", AGGRESSIVE, "always 20000"),
                   java("shenandoah, verified", f"{AGGRESSIVE} -XX:+ShenandoahVerify", "always 20000", is_slow=True),
                   java("generational shenandoah", f"{SHENANDOAH} -XX:ShenandoahGCMode=generational", "always 20000"),
                   java("z", Z, "always 20000"),
                   java("z, verified", f"{Z} -XX:+ZVerifyRoots -XX:+ZVerifyObjects", "always 20000", is_slow=True)),
               is_dear=True)

GO = Adapter("go", "golang-go", "go version",
             ("env GO111MODULE=off GOCACHE={built}/cache go build -o {built}/go "
              "adapter.go heap.go holders.go object.go",),
             "env GOGC=1 {{}}", (
                 Mode("always", "GODEBUG=clobberfree=1 {built}/go always 20000"),
                 Mode("checked", "GODEBUG=clobberfree=1,gccheckmark=1 {built}/go always 20000"),
                 Mode("litter", "GOMAXPROCS=2 GODEBUG=clobberfree=1 {built}/go 100000"),
                 Mode("stopped", "GOMAXPROCS=2 GODEBUG=clobberfree=1,gcstoptheworld=1 {built}/go 100000")),
             is_dear=True)

# What the adapter imports is compiled once.
COMPILED = "{python} -S -X pycache_prefix={built}/compiled"
CPYTHON = Adapter("cpython", "python3", "true",
                  (f"env -u PYTHONDONTWRITEBYTECODE {COMPILED} -c 'import cpython_keepers'",),
                  f"env PYTHONMALLOC=debug {COMPILED} {{here}}/cpython.py", (
                      Mode("young", "0"),
                      Mode("all", "2 3"),
                      Mode("automatic", "automatic")), is_dear=True)

THREADS = Adapter("threads", "default-jdk-headless", "javac --release 17 -version", ("javac -d {built} Threads.java",),
                  JAVA_COMMAND + " -cp {built} {{}}", (
                      Mode("serial", "-XX:+UseSerialGC Threads"),
                      Mode("shenandoah", f"{AGGRESSIVE} Threads 1000 20000", f"{JAVA_COMMAND} {AGGRESSIVE} -version"),
                      Mode("z", f"{Z} Threads 1000 20000", f"{JAVA_COMMAND} {Z} -version")), has_threads=True)

# Few slots are kept free, so that pages come and go.
SMALL_HEAP = ("RUBY_GC_HEAP_FREE_SLOTS=64 RUBY_GC_HEAP_FREE_SLOTS_MIN_RATIO=0.05 RUBY_GC_HEAP_FREE_SLOTS_GOAL_RATIO=0.1 "
              "RUBY_GC_HEAP_FREE_SLOTS_MAX_RATIO=0.2")
POISONED = "GLIBC_TUNABLES=glibc.malloc.perturb=219:glibc.malloc.tcache_count=0"

RUBY = Adapter("ruby", "ruby3.1-dev", "pkg-config --exists ruby-3.1",
               ("sh -c 'cc -O2 -o {built}/ruby ruby.c ruby_holders.c ruby_numbers.c ruby_roots.c front.c "
                "$(pkg-config --cflags --libs ruby-3.1)'",),
               f"env {POISONED} {SMALL_HEAP} {{built}}/ruby {{here}}/ruby_holders.rb {{{{}}}}", (
                   Mode("incremental", "incremental"),
                   Mode("generational", "generational 3"),
                   Mode("compacting", "compacting 10"),
                   Mode("moving", "moving"),
                   Mode("stressed", "stressed 200", is_slow=True)), is_dear=True)

RACKET = Adapter("racket", "racket liblz4-dev zlib1g-dev libncurses-dev", header("chezscheme.h", "/usr/include/racket -include stddef.h"),
                 ("cc -O2 -I/usr/include/racket -o {built}/racket racket.c front.c -lracketcs -lz -llz4 -lm -ldl -lpthread "
                  "-lrt -lncurses -ltinfo",),
                 f"env {POISONED} {{built}}/racket {{here}}/racket_holders.ss {{{{}}}}", (
                     Mode("young", "young"),
                     Mode("generations", "generations"),
                     Mode("staying", "staying 3"),
                     Mode("climbing", "climbing"),
                     Mode("marking", "marking"),
                     Mode("counted", "counted"),
                     Mode("checked", "checked", is_slow=True),
                     Mode("automatic", "automatic")), is_dear=True)

ALL = (LUA, LIBGC, OCAML, JAVA, GO, CPYTHON, THREADS, RUBY, RACKET)
