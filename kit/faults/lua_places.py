"""The places of Lua's collector, and why some of them are never run."""
from __future__ import annotations

from faults.places import Place, Plan, Reason, Source, What, function, functions, lines

TO_BE_CLOSED = "The adapter has no variable that is to be closed: these have no part in collections."
LARGE_CONSTANT = "It reads an operand that only a constructor of more than 255 elements has."
JUST_MADE = "No allocation comes between the birth of the prototype and this line, so no cycle has marked it."
KNOWN_NAME = "The name has been that of a variable before, and is marked with that."
FIXED_NAME = "The name is fixed, and so is never white."
GLOBALS = "The table of globals is marked from the registry, before a chunk that only the stack has."
PARAMETERS = "It sets or reads a parameter, and the collector does nothing meanwhile."
GROWS = "The heap has to grow by an eighth from one collection to the next, both of which freed little."
DEEPEST = "It needs a stack of a million slots."
LENGTH = "The length of a table is no concern of the collector, which goes by the size."

COLLECTOR = Source("src/lgc.c", (
    *functions(What.GREY, "linkgclist_ propagateall genlink"),
    function("getgclist", What.GREY, Reason.UNREACHABLE, most=1),
    *functions(What.BARRIER, "luaC_barrier_ luaC_barrierback_"),
    *functions(What.BIRTH, "luaC_newobj luaC_fix"),
    function("reallymarkobject", What.MARK, Reason.UNREACHABLE, most=1),
    function("propagatemark", What.MARK, Reason.UNREACHABLE, most=1),
    *functions(What.MARK, "traversestrongtable traversetable traverseudata traverseproto traverseCclosure "
                          "traverseLclosure traversethread"),
    *functions(What.ROOTS, "markmt restartcollection remarkupvals"),
    *functions(What.WEAK, "clearkey iscleared traverseweakvalue traverseephemeron convergeephemerons clearbykeys "
                          "clearbyvalues"),
    *functions(What.DEATH, "freeupval freeobj deletelist luaC_freeallobjects"),
    *functions(What.SWEEP, "sweeplist sweeptolive entersweep sweepstep"),
    *functions(What.GROWTH, "checkSizes"),
    *functions(What.FINALIZER, "markbeingfnz udata2finalize dothecall GCTM runafewfinalizers callallpendingfinalizers "
                               "findlast separatetobefnz checkpointer correctpointers luaC_checkfinalizer"),
    *functions(What.AGES, "sweep2old sweepgen whitelist markold youngcollection atomic2gen entergen enterinc "
                          "luaC_changemode fullgen genstep finishgencycle"),
    function("stepgenfull", What.CYCLE, GROWS, most=5),
    *functions(What.REMEMBERED, "correctgraylist correctgraylists"),
    *functions(What.CYCLE, "cleargraylists atomic luaC_runtilstate luaC_step fullinc luaC_fullgc incstep"),
    function("singlestep", What.CYCLE, Reason.UNREACHABLE, most=1),
    *functions(What.PACE, "setpause setminordebt"),
))

CLOSURES = Source("src/lfunc.c", (
    *functions(What.BIRTH, "luaF_newCclosure luaF_newLclosure luaF_initupvals newupval luaF_findupval luaF_newproto"),
    lines("luaC_objbarrier(L, cl, uv);", What.BARRIER),
    *functions(What.ROOTS, "luaF_unlinkupval luaF_closeupval"),
    function("luaF_close", What.ROOTS, TO_BE_CLOSED, most=4),
    lines("luaC_barrier(L, uv, slot);", What.BARRIER),
    *functions(What.DEATH, "luaF_freeproto"),
), is_whole=False)

STRINGS = Source("src/lstring.c", (
    *functions(What.GROWTH, "tablerehash luaS_init"),
    function("luaS_resize", What.GROWTH, Reason.REFUSED, most=2),
    function("growstrtab", What.GROWTH, Reason.SIZE, most=3),
    *functions(What.BIRTH, "createstrobj luaS_createlngstrobj luaS_new internshrstr"),
    function("luaS_newlstr", What.BIRTH, Reason.SIZE, most=1),
    function("luaS_newudata", What.BIRTH, Reason.SIZE, most=1),
    lines("changewhite(ts);  /* resurrect it */", What.SWEEP),
    *functions(What.WEAK, "luaS_clearcache"),
    *functions(What.DEATH, "luaS_remove"),
), is_whole=False)

TABLES = Source("src/ltable.c", (
    *functions(What.BIRTH, "luaH_new"),
    *functions(What.DEATH, "luaH_free freehash"),
    *functions(What.GROWTH, "luaH_realasize ispow2realasize setlimittosize computesizes numusearray numusehash "
                            "reinsert exchangehashpart luaH_resizearray rehash getfreepos binsearch"),
    function("setnodevector", What.GROWTH, Reason.SIZE, most=1),
    function("luaH_resize", What.GROWTH, Reason.REFUSED, most=2),
    function("luaH_getn", What.GROWTH, LENGTH),
    function("luaH_newkey", What.STORE, Reason.MISUSE, most=2),
    lines("luaC_barrierback(L, obj2gco(t), key);", What.BARRIER),
    lines("!(deadok && keyisdead(n2) && iscollectable(k1)))", What.WEAK),
), is_whole=False)

STATES = Source("src/lstate.c", (
    function("luaE_setdebt", What.PACE, Reason.SIZE, most=1),
    *functions(What.GROWTH, "luaE_extendCI luaE_freeCI luaE_shrinkCI stack_init"),
    *functions(What.BIRTH, "lua_newthread preinit_thread"),
    function("lua_newstate", What.BIRTH, Reason.REFUSED, most=2),
    function("freestack", What.DEATH, Reason.REFUSED, most=1),
    function("close_state", What.DEATH, Reason.REFUSED, most=1),
    *functions(What.DEATH, "luaE_freethread lua_close"),
), is_whole=False)

MEMORY = Source("src/lmem.c", (
    *functions(What.EMERGENCY, "tryagain"),
    function("luaM_malloc_", What.BIRTH, Reason.REFUSED, most=1),
    *functions(What.BIRTH, "luaM_realloc_"),
    function("luaM_saferealloc_", What.BIRTH, Reason.REFUSED, most=1),
    *functions(What.DEATH, "luaM_free_"),
    function("luaM_growaux_", What.GROWTH, "It is the limit of what a parser counts.", most=3),
    *functions(What.GROWTH, "luaM_shrinkvector_"),
    function("luaM_toobig", What.GROWTH, Reason.SIZE),
))


def stores(names: str) -> list[Place]:
    return list(functions(What.STORE, names))


def barriers(*texts: str) -> list[Place]:
    """Lines that are barriers."""
    return [lines(text, What.BARRIER) for text in texts]


INTERFACE = Source("src/lapi.c", (
    *stores("lua_copy auxsetstr lua_setglobal lua_settable lua_setfield lua_seti aux_rawset lua_rawset lua_rawsetp "
            "lua_rawseti lua_setmetatable lua_load lua_setupvalue lua_upvaluejoin"),
    function("lua_setiuservalue", What.STORE, Reason.MISUSE, most=1),
    function("aux_upvalue", What.STORE, Reason.MISUSE, most=3),
    function("getupvalref", What.STORE, Reason.MISUSE, most=1),
    *barriers("luaC_barrier(L, clCvalue(s2v(L->ci->func)), fr);", "luaC_objbarrier(L, gcvalue(obj), mt);",
              "luaC_objbarrier(L, uvalue(obj), mt);", "luaC_barrierback(L, gcvalue(o), s2v(L->top - 1));",
              "luaC_barrier(L, owner, val);", "luaC_objbarrier(L, f1, *up1);"),
    lines("static void aux_rawset (lua_State *L", What.BARRIER, behind=7),
    lines("LUA_API void lua_rawseti (lua_State *L", What.BARRIER, behind=6),
    lines("luaC_barrier(L, f->upvals[0], gt);", What.BARRIER, GLOBALS),
    *functions(What.BIRTH, "lua_pushlstring lua_pushfstring lua_pushcclosure lua_createtable lua_newuserdatauv"),
    function("lua_pushstring", What.BIRTH, Reason.MISUSE, most=1),
    function("lua_concat", What.BIRTH, "It makes the empty string of no operands.", most=2),
    *functions(What.BIRTH, "lua_tolstring"),
    function("lua_gc", What.CYCLE, PARAMETERS),
    *functions(What.WEAK, "lua_next"),
    function("lua_checkstack", What.GROWTH, DEEPEST, most=1),
), is_whole=False)

INTERPRETER = Source("src/lvm.c", (
    *stores("pushclosure"),
    function("luaV_finishset", What.STORE, Reason.MISUSE, most=4),
    lines("luaH_finishset(L, h, key, slot, val);  /* set new value */", What.BARRIER, behind=2),
    *barriers("luaV_finishfastset(L, t, slot, val);", "luaC_objbarrier(L, ncl, ncl->upvals[i]);",
              "luaC_barrier(L, uv, s2v(ra));", "luaV_finishfastset(L, upval, slot, rc);"),
    lines("vmcase(OP_SETTABLE) {", What.BARRIER, behind=8),
    lines("vmcase(OP_SETI) {", What.BARRIER, behind=5),
    lines("vmcase(OP_SETFIELD) {", What.BARRIER, behind=6),
    lines("vmcase(OP_NEWTABLE) {", What.BIRTH, LARGE_CONSTANT, count=17),
    lines("vmcase(OP_CONCAT) {", What.BIRTH, count=5),
    lines("vmcase(OP_SETLIST) {", What.BARRIER, behind=19),
    lines("vmcase(OP_CLOSURE) {", What.BIRTH, count=4),
), is_whole=False)

STACKS = Source("src/ldo.c", (
    *functions(What.GROWTH, "correctstack luaD_inctop"),
    function("luaD_reallocstack", What.GROWTH, Reason.REFUSED, most=1),
    function("luaD_growstack", What.OVERFLOW, DEEPEST, most=8),
    function("stackinuse", What.GROWTH, Reason.UNREACHABLE, most=1),
    function("luaD_shrinkstack", What.GROWTH, DEEPEST, most=3),
), is_whole=False)

PARSER = Source("src/lparser.c", (
    *barriers("luaC_objbarrier(ls->L, f, varname);", "luaC_objbarrier(L, f, clp);", "luaC_objbarrier(L, cl, cl->p);",
              "luaC_objbarrier(L, funcstate.f, funcstate.f->source);"),
    lines("luaC_objbarrier(fs->ls->L, fs->f, name);", What.BARRIER, KNOWN_NAME),
    lines("luaC_objbarrier(ls->L, f, f->source);", What.BARRIER, JUST_MADE),
    lines("luaC_objbarrier(ls->L, fs->f, env->name);", What.BARRIER, FIXED_NAME)), is_whole=False)

CODES = Source("src/lcode.c", tuple(barriers("luaC_barrier(L, f, v);")), is_whole=False)

LOADER = Source("src/lundump.c", tuple(barriers(
    "luaC_objbarrier(L, p, ts);", "luaC_objbarrier(S->L, f, f->p[i]);", "luaC_objbarrier(L, cl, cl->p);")),
                is_whole=False)

LUA_PLACES = Plan("lua", (COLLECTOR, CLOSURES, STRINGS, TABLES, STATES, MEMORY, INTERFACE, INTERPRETER, STACKS, PARSER,
                          CODES, LOADER))
