/* Answers scripts by the collector of Lua 5.4, through its C interface and by code in the language.
**
**     cc -O2 -I/usr/include/lua5.4 -o lua lua*.c front.c -llua5.4    (Debian: liblua5.4-dev)
**     lua [incremental | generational | switching] [emergency] [EVERY]
**
** After each EVERY commands (1) the collector works:
**   incremental   by the least step; a cycle takes many
**   generational  by a collection of what is young; `* quantum` is one of all
**   switching     by either, in turn from one `* start` to the next
**   emergency     each 50th allocation fails once, fewer of many objects: a full collection comes in its midst
**
** A block that is freed is poisoned, and each reallocation moves. What the C library writes into freed blocks lies
** before and behind what Lua had. Objects keep their fields in many ways, by their birth, size and first slot. Numbers
** are strings, short and long, and functions; references lie behind them. Slots take turns at the stack of the main
** thread, a table, the metatable of booleans, a closure and global variables. A Lua that is built without a fixed seed
** hashes strings by addresses: `setarch -R` makes runs the same.
**
** Cycles are counted by a sentinel, whose finalizer makes the next one. Whether a cycle is under way is what the last
** step said; what an allocation does by itself within a command isn't known, nor in which phase a cycle is. A
** collection of the generational modes is a cycle that no command falls within.
*/
#include "front.h"
#include "lua_code.h"
#include "lua_fields.h"
#include "lua_numbers.h"
#include "lua_roots.h"

#include <lauxlib.h>
#include <stdio.h>
#include <stdlib.h>
#include <string.h>

enum { POISON = 0xDB, LEAST = 4 };
/* One in so many allocations fails, and in one more for each so many objects. */
enum { FAILING = 50, BIRTHS = 4 };
/* How many bytes of a block lie before and behind what Lua gets. */
enum { BEFORE = 32, BEHIND = 16 };
/* The stack grows once in so many commands, or in so few with emergencies; one in so many steps is larger than the
** least; and the lists of calls and strings grow once in so many cycles that are asked for.
*/
enum { SOME_COMMANDS = 64, FEW_COMMANDS = 8, SOME_STEPS = 16, SOME_STARTS = 8 };
/* How deep functions of the language call themselves, and of C; what one of C reserves of the stack; and how many
** strings live at once.
*/
enum { DEPTH = 60, C_DEPTH = 20, RESERVED = 1000, BURST = 400, SHORT_STRING = 16 };
/* One in so many tables that are built has its collections in the midst: so many, or steps. */
enum { SOME_TABLES = 4, YOUNG_COLLECTIONS = 2, STEPS = 6 };

static lua_State *state;
static bool is_generational, is_switching, has_emergencies, is_under_way;
static uint64_t cycles, births, allocations, commands, starts, steps, quanta, tables, every;

static void *moved(const void *old, size_t old_size, size_t size)
{
    char *made = malloc(BEFORE + size + BEHIND);
    if (made == NULL)
        return NULL;
    memset(made + BEFORE, POISON, size);
    if (old != NULL)
        memcpy(made + BEFORE, old, old_size < size ? old_size : size);
    return made + BEFORE;
}

static void *allocate(void *unused, void *old, size_t old_size, size_t size)
{
    void *made = NULL;
    (void)unused;
    if (has_emergencies && state != NULL && size > old_size && ++allocations >= FAILING + births / BIRTHS) {
        allocations = 0;
        return NULL;
    }
    if (size > 0 && (made = moved(old, old_size, size)) == NULL)
        return NULL;
    if (old != NULL) {
        memset(old, POISON, old_size);
        free((char *)old - BEFORE);
    }
    return made;
}

static void add_sentinel(lua_State *at);

static int count_cycle(lua_State *at)
{
    cycles++;
    add_sentinel(at);
    return 0;
}

/* Makes what nothing leads to, so that the next cycle finalizes it. */
static void add_sentinel(lua_State *at)
{
    lua_createtable(at, 0, 0);
    lua_createtable(at, 0, 1);
    lua_pushcfunction(at, count_cycle);
    lua_setfield(at, -2, "__gc");
    lua_setmetatable(at, -2);
    lua_pop(at, 1);
}

static void set_mode(bool generational)
{
    is_generational = generational;
    is_under_way = false;
    if (is_generational)
        lua_gc(state, LUA_GCGEN, 0, 0);
    else
        lua_gc(state, LUA_GCINC, 100, LEAST, LEAST);
}

static void step(lua_State *at)
{
    bool is_larger = !is_generational && is_under_way && ++steps % SOME_STEPS == 0;
    bool has_ended = lua_gc(at, LUA_GCSTEP, is_larger ? 1 : 0);
    is_under_way = !is_generational && !has_ended;
}

/* A function for the language: at times the collector works in the midst of it. */
static int work(lua_State *at)
{
    int count = is_generational ? YOUNG_COLLECTIONS : STEPS;
    if (++tables % SOME_TABLES != 0)
        return 0;
    for (int i = 0; i < count; i++)
        step(at);
    return 0;
}

void heap_open(void)
{
    is_switching = is_asked("switching");
    has_emergencies = is_asked("emergency");
    every = number_asked(1);
    lua_State *made = lua_newstate(allocate, NULL);
    lua_checkstack(made, TOP + FEW_FIELDS + LUA_MINSTACK);
    open_roots(made);
    open_code(made, work);
    add_sentinel(made);
    state = made;
    set_mode(is_asked("generational"));
}

void heap_close(void)
{
    close_weak();
    lua_close(state);
}

void heap_begin(void)
{
    births = allocations = commands = starts = steps = quanta = tables = 0;
    if (is_switching && is_generational)
        set_mode(false);
}

/* Pushes what a root names, and returns it: NULL if it names nothing. */
static const struct object *push(int root)
{
    push_root(state, root);
    return lua_touserdata(state, -1);
}

/* Lets a root name what is on top. */
static void set(int root)
{
    set_root(state, root);
    lua_settop(state, TOP);
}

bool heap_make(int root, uint64_t references, uint64_t numbers)
{
    uint64_t turn = births++ + references + 3 * numbers + 5 * (uint64_t)root;
    bool is_large = references + numbers > FEW_FIELDS;
    enum kind kind = is_large ? ARRAY_PART : (enum kind)(turn % KINDS);
    push_object(state, (struct object){references, numbers, kind, (unsigned)(turn / KINDS)});
    set(root);
    return true;
}

bool heap_shape(int root, uint64_t *references, uint64_t *numbers)
{
    const struct object *object = push(root);
    if (object != NULL) {
        *references = object->references;
        *numbers = object->numbers;
    }
    lua_settop(state, TOP);
    return object != NULL;
}

/* Numbers are fields from 1 on, and references lie behind them. */
static int field_of(const struct object *object, uint64_t reference)
{
    return 1 + (int)(object->numbers + reference);
}

void heap_get(int to, int from, uint64_t reference)
{
    const struct object *object = push(from);
    load(state, field_of(object, reference));
    set(to);
}

void heap_put(int to, uint64_t reference, int from)
{
    const struct object *object = push(to);
    int owner = lua_gettop(state);
    push(from);
    lua_pushvalue(state, owner);
    lua_insert(state, -2);
    store(state, field_of(object, reference));
    lua_settop(state, TOP);
}

uint64_t heap_read(int root, uint64_t number)
{
    push(root);
    load(state, 1 + (int)number);
    uint64_t value = number_on_top(state);
    lua_settop(state, TOP);
    return value;
}

void heap_write(int root, uint64_t number, uint64_t value)
{
    const struct object *object = push(root);
    push_number(state, value, object->turn + (unsigned)number);
    store(state, 1 + (int)number);
    lua_settop(state, TOP);
}

void heap_copy(int to, int from)
{
    push(from);
    set(to);
}

void heap_clear(int root)
{
    lua_pushnil(state);
    set(root);
}

bool heap_same(int one, int other)
{
    push(one);
    int first = lua_gettop(state);
    push(other);
    bool is_same = lua_rawequal(state, first, -1);
    lua_settop(state, TOP);
    return is_same;
}

static int reserve(lua_State *at)
{
    lua_checkstack(at, RESERVED);
    return 0;
}

/* The stack grows, to be too large from now on. */
static void grow_stack(void)
{
    lua_pushcfunction(state, reserve);
    lua_call(state, 0, 0);
}

/* So does the list of calls. */
static void grow_calls(void)
{
    push_code(state, DEEP);
    lua_pushinteger(state, DEPTH);
    lua_call(state, 1, 0);
}

static void push_burst(int number)
{
    char name[SHORT_STRING];
    snprintf(name, sizeof name, "burst %d", number);
    lua_pushstring(state, name);
}

/* So does the table of strings: many live at once, and some are made as all of them have died. */
static void grow_strings(void)
{
    lua_gc(state, LUA_GCSTOP);
    lua_createtable(state, BURST, 0);
    for (int i = 0; i < BURST; i++) {
        push_burst(i);
        lua_rawseti(state, -2, i + 1);
    }
    lua_pop(state, 1);
    for (int i = BURST; i < BURST + FAILING; i++) {
        push_burst(i);
        lua_pop(state, 1);
    }
    lua_gc(state, LUA_GCRESTART);
}

void heap_start(void)
{
    starts++;
    if (starts % SOME_STARTS == 2) {
        grow_calls();
        grow_strings();
    }
    if (starts % SOME_STARTS == 3)
        renew_roots(state);
    if (is_switching)
        set_mode(has_emergencies ? starts / 2 % 2 == 1 : !is_generational);
    if (!is_under_way)
        step(state);
}

static int end_cycle(lua_State *at)
{
    if (is_generational) {
        lua_gc(at, LUA_GCCOLLECT);
        return 0;
    }
    do
        step(at);
    while (is_under_way);
    return 0;
}

/* Calls itself, so that many functions of C are under way, and ends the cycle in the last. */
static int end_cycle_within(lua_State *at)
{
    lua_Integer depth = lua_tointeger(at, 1);
    if (depth == 0)
        return end_cycle(at);
    lua_pushcfunction(at, end_cycle_within);
    lua_pushinteger(at, depth - 1);
    lua_call(at, 1, 0);
    return 0;
}

/* Ends the cycle with a table half walked over, whose first key has lost its value and is dead behind it. */
static void end_cycle_in_walk(void)
{
    enum { ENTRIES = 4 };
    int left = ENTRIES;
    lua_createtable(state, 0, ENTRIES);
    for (int i = 0; i < ENTRIES; i++) {
        lua_createtable(state, 0, 0);
        lua_pushboolean(state, true);
        lua_rawset(state, TOP + 1);
    }
    for (lua_pushnil(state); lua_next(state, TOP + 1) != 0; left--) {
        lua_pushvalue(state, -2);
        lua_pushnil(state);
        lua_rawset(state, TOP + 1);
        lua_pop(state, 1);
        if (left == ENTRIES)
            end_cycle(state);
    }
    lua_settop(state, left == 0 ? TOP : 0);
}

static void end_cycle_in_coroutine(void)
{
    int results;
    lua_State *coroutine = lua_newthread(state);
    lua_pushcfunction(coroutine, end_cycle);
    lua_resume(coroutine, state, 0, &results);
    lua_pop(state, 1);
}

void heap_quantum(void)
{
    switch (quanta++ % 4) {
    case 1:
        lua_pushcfunction(state, end_cycle_within);
        lua_pushinteger(state, C_DEPTH);
        lua_call(state, 1, 0);
        break;
    case 2:
        end_cycle_in_walk();
        break;
    case 3:
        end_cycle_in_coroutine();
        break;
    default:
        end_cycle(state);
    }
}

void heap_step(void)
{
    if (++commands % (has_emergencies ? FEW_COMMANDS : SOME_COMMANDS) == 0)
        grow_stack();
    if (commands % every == 0)
        step(state);
}

struct progress heap_progress(void)
{
    return (struct progress){cycles, is_switching || !is_generational, is_under_way, false};
}
