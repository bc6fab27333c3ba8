"""Faults of Lua in its other files: where values are stored, and where stacks, tables and strings are moved."""
from __future__ import annotations

from faults.planted import Fault, Kind


def barrier(name: str, file: str, old: str, harm: str, new: str = ";", unseen: str = "") -> Fault:
    """A barrier that isn't there."""
    return Fault(name, Kind.BARRIER, f"src/{file}", old, new, harm, unseen)


def move(name: str, file: str, old: str, new: str, harm: str, unseen: str = "") -> Fault:
    return Fault(name, Kind.STACK, f"src/{file}", old, new, harm, unseen)


# What a fast store is without its barrier.
STORED = "{ setobj2t(L, cast(TValue *,slot), %s); }"
TOP = STORED % "s2v(L->top - 1)"

INTERFACE = (
    barrier("user-value-barrier", "lapi.c", "luaC_barrierback(L, gcvalue(o), s2v(L->top - 1));",
            "What is stored in a user value of a marked object is freed."),
    barrier("upvalue-barrier", "lapi.c", "luaC_barrier(L, owner, val);",
            "What is stored in an upvalue of a marked closure is freed."),
    barrier("raw-set-barrier", "lapi.c",
            "  luaH_set(L, t, key, s2v(L->top - 1));\n  invalidateTMcache(t);\n"
            "  luaC_barrierback(L, obj2gco(t), s2v(L->top - 1));\n",
            "What is stored in a marked table by its interface for C is freed.",
            "  luaH_set(L, t, key, s2v(L->top - 1));\n  invalidateTMcache(t);\n"),
    barrier("raw-set-integer-barrier", "lapi.c",
            "  luaH_setint(L, t, n, s2v(L->top - 1));\n  luaC_barrierback(L, obj2gco(t), s2v(L->top - 1));\n",
            "What `lua_rawseti` stores in a marked table is freed.", "  luaH_setint(L, t, n, s2v(L->top - 1));\n"),
    barrier("set-field-barrier", "lapi.c",
            "    luaV_finishfastset(L, t, slot, s2v(L->top - 1));\n    L->top--;  /* pop value */",
            "What `lua_setfield` stores over a value of a marked table is freed.",
            f"    {TOP}\n    L->top--;  /* pop value */"),
    barrier("set-table-barrier", "lapi.c",
            "s2v(L->top - 2), slot, luaH_get)) {\n    luaV_finishfastset(L, t, slot, s2v(L->top - 1));",
            "What `lua_settable` stores over a value of a marked table is freed.",
            f"s2v(L->top - 2), slot, luaH_get)) {{\n    {TOP}"),
    barrier("set-integer-barrier", "lapi.c",
            "  if (luaV_fastgeti(L, t, n, slot)) {\n    luaV_finishfastset(L, t, slot, s2v(L->top - 1));",
            "What `lua_seti` stores over a value of a marked table is freed.",
            f"  if (luaV_fastgeti(L, t, n, slot)) {{\n    {TOP}"),
    barrier("table-metatable-barrier", "lapi.c", "luaC_objbarrier(L, gcvalue(obj), mt);",
            "The metatable that a marked table gets is freed."),
    barrier("object-metatable-barrier", "lapi.c", "luaC_objbarrier(L, uvalue(obj), mt);",
            "The metatable that a marked object gets is freed."),
    barrier("copy-to-upvalue-barrier", "lapi.c", "luaC_barrier(L, clCvalue(s2v(L->ci->func)), fr);",
            "What a function of C copies into its own upvalue is freed."),
    barrier("upvalue-join-barrier", "lapi.c", "  luaC_objbarrier(L, f1, *up1);\n",
            "The variable of another closure that a marked closure gets is freed.", ""),
    barrier("globals-barrier", "lapi.c", "      luaC_barrier(L, f->upvals[0], gt);\n",
            "The globals that a marked chunk gets are freed.", "",
            "globals are marked from the registry, in any case"),
    Fault("finalizer-unnoticed", Kind.FINALIZER, "src/lapi.c", "        luaC_checkfinalizer(L, gcvalue(obj), mt);\n"
          "      }\n      break;\n    }\n    case LUA_TUSERDATA: {",
          "      }\n      break;\n    }\n    case LUA_TUSERDATA: {",
          "A table that gets a finalizer is freed without a call of it."),
)

INTERPRETER = (
    barrier("new-key-barrier", "ltable.c", "luaC_barrierback(L, obj2gco(t), key);",
            "A new key of a marked table is freed."),
    barrier("new-entry-barrier", "lvm.c",
            "        invalidateTMcache(h);\n        luaC_barrierback(L, obj2gco(h), val);\n",
            "What is stored in a marked table where it had nothing is freed.", "        invalidateTMcache(h);\n"),
    barrier("metamethod-barrier", "lvm.c", "luaV_finishfastset(L, t, slot, val);",
            "What a metatable sends on to a marked table is freed.", STORED % "val"),
    barrier("variable-barrier", "lvm.c", "        luaC_barrier(L, uv, s2v(ra));\n",
            "What a function stores in a variable of a marked closure is freed.", ""),
    barrier("global-barrier", "lvm.c", "luaV_finishfastset(L, upval, slot, rc);",
            "What a function stores in a global variable is freed.", STORED % "rc"),
    barrier("element-barrier", "lvm.c", "            : luaV_fastget(L, s2v(ra), rb, slot, luaH_get)) {\n"
            "          luaV_finishfastset(L, s2v(ra), slot, rc);",
            "What a function stores by any key over a value of a marked table is freed.",
            f"            : luaV_fastget(L, s2v(ra), rb, slot, luaH_get)) {{\n          {STORED % 'rc'}"),
    barrier("integer-element-barrier", "lvm.c",
            "        if (luaV_fastgeti(L, s2v(ra), c, slot)) {\n          luaV_finishfastset(L, s2v(ra), slot, rc);",
            "What a function stores by a constant integer over a value of a marked table is freed.",
            f"        if (luaV_fastgeti(L, s2v(ra), c, slot)) {{\n          {STORED % 'rc'}"),
    barrier("field-barrier", "lvm.c", "        if (luaV_fastget(L, s2v(ra), key, slot, luaH_getshortstr)) {\n"
            "          luaV_finishfastset(L, s2v(ra), slot, rc);",
            "What a function stores by a constant string over a value of a marked table is freed.",
            f"        if (luaV_fastget(L, s2v(ra), key, slot, luaH_getshortstr)) {{\n          {STORED % 'rc'}"),
    barrier("constructor-barrier", "lvm.c", "          last--;\n          luaC_barrierback(L, obj2gco(h), val);\n",
            "An element that a constructor makes after a collection is freed.", "          last--;\n"),
    barrier("closure-barrier", "lvm.c", "    luaC_objbarrier(L, ncl, ncl->upvals[i]);\n",
            "A variable that a closure shares is freed if a collection comes as the closure is made.", ""),
    barrier("chunk-upvalue-barrier", "lfunc.c", "    luaC_objbarrier(L, cl, uv);\n",
            "The variable of a chunk is freed if a collection comes as it is made.", ""),
    barrier("closed-variable-barrier", "lfunc.c", "      luaC_barrier(L, uv, slot);\n",
            "What a variable has as its function returns is freed.", ""),
    barrier("closed-variable-grey", "lfunc.c", "      nw2black(uv);  /* closed upvalues cannot be gray */\n",
            "A variable stays grey as its function returns, and so has no barrier.", ""),
)

COMPILER = (
    barrier("variable-name-barrier", "lparser.c", "  luaC_objbarrier(ls->L, f, varname);\n",
            "The name of a variable of a marked function is freed.", "",
            "no script had an emergency between the births of the function and of this"),
    barrier("upvalue-name-barrier", "lparser.c", "  luaC_objbarrier(fs->ls->L, fs->f, name);\n",
            "The name of an upvalue of a marked function is freed.", "",
            "the name has been that of a variable before, and was marked with that"),
    barrier("nested-function-barrier", "lparser.c", "  luaC_objbarrier(L, f, clp);\n",
            "The code of a function within a marked one is freed.", ""),
    barrier("chunk-barrier", "lparser.c", "  luaC_objbarrier(L, cl, cl->p);\n",
            "The code of a marked chunk is freed.", ""),
    barrier("source-barrier", "lparser.c", "  luaC_objbarrier(L, funcstate.f, funcstate.f->source);\n",
            "The name of a chunk's source is freed.", ""),
    barrier("constant-barrier", "lcode.c", "  luaC_barrier(L, f, v);\n",
            "A constant of a marked function is freed.", ""),
    barrier("loaded-string-barrier", "lundump.c", "  luaC_objbarrier(L, p, ts);\n",
            "A string of a marked function that is loaded is freed.", ""),
    barrier("loaded-function-barrier", "lundump.c", "    luaC_objbarrier(S->L, f, f->p[i]);\n",
            "The code of a function within a marked one that is loaded is freed.", ""),
    barrier("loaded-chunk-barrier", "lundump.c", "  luaC_objbarrier(L, cl, cl->p);\n",
            "The code of a marked chunk that is loaded is freed.", "",
            "no script had an emergency between the births of the chunk and of its code"),
)

STRINGS = (
    Fault("interned", Kind.SWEEP, "src/lstring.c", "changewhite(ts);  /* resurrect it */", ";",
          "A short string that is made again before it is swept is freed while it is used."),
    move("string-place-stale", "lstring.c",
         "    list = &tb->hash[lmod(h, tb->size)];  /* rehash with new size */\n", "",
         "A new string goes where the table of strings was before it grew."),
    move("string-rehash-last", "lstring.c", "  for (i = 0; i < osize; i++) {  /* rehash old part of the array */\n",
         "  for (i = 0; i + 1 < osize; i++) {\n",
         "The last strings stay where they were as the table of strings grows."),
    Fault("name-not-fixed", Kind.MARKING, "src/ltm.c",
          "    luaC_fix(L, obj2gco(G(L)->tmname[i]));  /* never collect these names */\n", "",
          "Names of metamethods are freed, and no finalizer and no weak table is found by them."),
    Fault("user-values-born-dirty", Kind.BIRTH, "src/lstring.c", "    setnilvalue(&u->uv[i].uv);\n", "    ;\n",
          "User values of a new object aren't nil, but what was there before."),
)

TABLES = (
    move("size-by-length", "ltable.c", "  if (limitequalsasize(t))\n    return t->alimit;  /* this is the size */\n",
         "  if (1)\n    return t->alimit;\n",
         "The array of a table that was asked for its length seems shorter than it is."),
    move("shrunk-array", "ltable.c", "        luaH_setint(L, t, i + 1, &t->array[i]);\n", "        ;\n",
         "What an array has loses its place as the array shrinks."),
    move("new-array-dirty", "ltable.c", "     setempty(&t->array[i]);\n", "     ;\n",
         "New elements of an array aren't empty, but what was there before."),
    Fault("dead-key-not-found", Kind.WEAK, "src/ltable.c", "!(deadok && keyisdead(n2) && iscollectable(k1)))", "1)",
          "A walk over a table fails at a key that has died."),
)

STACKS = (
    move("moved-stack-variables", "ldo.c", "    up->v = s2v((uplevel(up) - oldstack) + newstack);\n", "    ;\n",
         "Closures keep the place of their variables as the stack moves."),
    move("stack-in-use", "ldo.c", "    if (lim < ci->top) lim = ci->top;\n", "    ;\n",
         "A stack shrinks below what its functions have reserved."),
    move("new-stack-dirty", "ldo.c", "    setnilvalue(s2v(newstack + i)); /* erase new segment */\n", "    ;\n",
         "New places of a stack aren't nil, but what was there before."),
    move("calls-unlinked", "lstate.c", "      next2->previous = ci;\n", "      ;\n",
         "The list of calls is broken as half of it is freed."),
    Fault("thread-born-black", Kind.BIRTH, "src/lstate.c", "  L1->marked = luaC_white(g);\n",
          "  L1->marked = bitmask(BLACKBIT);\n", "A thread is born marked, so its stack isn't looked at."),
    Fault("dying-thread-variables", Kind.SWEEP, "src/lstate.c",
          "  luaF_closeupval(L1, L1->stack);  /* close all upvalues */\n", "",
          "Closures keep variables on the stack of a thread that was freed."),
    Fault("new-variable-unlisted", Kind.GREY, "src/lfunc.c",
          "  if (!isintwups(L)) {  /* thread not in list of threads with upvalues? */\n", "  if (0) {\n",
          "A thread isn't listed as its first variable is shared."),
    move("no-second-try", "lmem.c", "    return (*g->frealloc)(g->ud, block, osize, nsize);  /* try again */\n",
         "    return NULL;\n", "No memory is asked for again after a collection that freed some."),
)

OTHER_FAULTS = (*INTERFACE, *INTERPRETER, *COMPILER, *STRINGS, *TABLES, *STACKS)
