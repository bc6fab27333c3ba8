"""Lua, whose collector is incremental and generational, with barriers forward and back."""
from __future__ import annotations

from faults.lua_collector import COLLECTOR_FAULTS
from faults.lua_stores import OTHER_FAULTS
from faults.planted import Collector

FAULTS = (*COLLECTOR_FAULTS, *OTHER_FAULTS)
SEEDED = "cc -O2 -w {flags} -DLUA_USE_POSIX '-Dluai_makeseed(L)=1' -I{tree}/src"
EDITED = " ".join(sorted({f"{{tree}}/{fault.file}" for fault in FAULTS}))

LUA = Collector(
    "lua", "lua5.4",
    (f"mkdir -p {{built}}/objects && cd {{built}}/objects && {SEEDED} -c {{tree}}/src/l*.c && rm -f lua.o luac.o",),
    (f"cd {{built}}/objects && for file in {EDITED}; do "
     f"[ $(basename $file .c).o -nt $file ] || {SEEDED} -c $file || exit 1; done",
     f"{SEEDED} -o {{built}}/lua {{here}}/lua.c {{here}}/lua_*.c {{here}}/front.c {{built}}/objects/*.o -lm"),
    FAULTS)
