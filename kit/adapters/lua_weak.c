/* Objects of the adapter for Lua that keep their fields in weak tables, or where a finalizer brings them back. */
#include "lua_fields.h"

#include "lua_code.h"

#include <lauxlib.h>
#include <stdlib.h>

/* Where the registry has the ephemeron tables: one for each of the first fields, from the object to what the field has;
** the objects that finalizers ask for, by serial numbers; and the metatable with the finalizer.
*/
static const char EPHEMERONS = 'e', OWNERS = 'o', FINALIZER = 'f';

/* Finalizers are called without a collection. */
static bool is_closing;

enum { SHARED = 6, LINKS = 2, FAILING = 3 };
/* What a table with a finalizer has beside fields; and the place where the first table has it. */
enum { SERIAL = 0, LITTER = -1, HELD = 0 };
/* How a table with a finalizer lives: it dies in each cycle; stores let it be held and no longer held in turn; its
** finalizer lets it be held, until the next store; it is held and has no finalizer, until the first store.
*/
enum life { DYING, CHANGING, HELD_BY_FINALIZER, LATE, LIVES };

void close_weak(void)
{
    is_closing = true;
}

static void push_weak_table(lua_State *state, const char *mode, int elements)
{
    lua_createtable(state, elements, 0);
    lua_createtable(state, 0, 1);
    lua_pushstring(state, mode);
    lua_setfield(state, -2, "__mode");
    lua_setmetatable(state, -2);
}

static void push_ephemerons(lua_State *state, int field)
{
    if (lua_rawgetp(state, LUA_REGISTRYINDEX, &EPHEMERONS) == LUA_TNIL) {
        lua_createtable(state, 0, 0);
        lua_pushvalue(state, -1);
        lua_rawsetp(state, LUA_REGISTRYINDEX, &EPHEMERONS);
        lua_replace(state, -2);
    }
    if (lua_rawgeti(state, -1, field) == LUA_TNIL) {
        push_weak_table(state, "k", 0);
        lua_pushvalue(state, -1);
        lua_rawseti(state, -4, field);
    }
}

static int user_values_by_ephemerons(const struct object *object, int fields)
{
    (void)object;
    return fields > SHARED ? 1 : 0;
}

/* What is behind the first fields is in a table of the object's own, whose keys are integers and so never die. */
static void make_ephemerons(lua_State *state, const struct object *object, int owner, int fields)
{
    (void)object;
    if (fields > SHARED) {
        push_weak_table(state, "k", fields);
        lua_setiuservalue(state, owner, 1);
    }
}

/* Puts in the place of a key on top what an ephemeron table has for it: a table, which is made if there is none. */
static void follow(lua_State *state, int table)
{
    lua_pushvalue(state, -1);
    if (lua_rawget(state, table) == LUA_TNIL) {
        lua_createtable(state, 0, 0);
        lua_replace(state, -2);
        lua_pushvalue(state, -2);
        lua_pushvalue(state, -2);
        lua_rawset(state, table);
    }
    lua_replace(state, -2);
}

/* Pushes the table that has a field, and the key of the field there. The object is the key of a link, that of another
** link, and that of what the field has. So a table may have to be looked at three times.
*/
static void push_ephemeron(lua_State *state, int owner, int field)
{
    if (field <= SHARED) {
        push_ephemerons(state, field);
        lua_pushvalue(state, owner);
        for (int i = 0; i < LINKS; i++)
            follow(state, lua_gettop(state) - 1);
    } else {
        lua_getiuservalue(state, owner, 1);
        lua_pushinteger(state, field);
    }
}

static void load_from_ephemeron(lua_State *state, const struct object *object, int owner, int field)
{
    (void)object;
    push_ephemeron(state, owner, field);
    lua_rawget(state, -2);
}

static void store_in_ephemeron(lua_State *state, const struct object *object, int owner, int field)
{
    int value = lua_gettop(state);
    push_ephemeron(state, owner, field);
    int table = lua_gettop(state) - 1;
    lua_pushvalue(state, value);
    assign(state, table, (unsigned)field + object->turn);
}

const struct keeping EPHEMERON_KEEPING = {user_values_by_ephemerons, make_ephemerons, load_from_ephemeron,
                                          store_in_ephemeron};

/* A table keeps what the fields have, and a second one is read, which has weak values or dies in each cycle. */
static int two_user_values(const struct object *object, int fields)
{
    (void)object, (void)fields;
    return 2;
}

/* Lets the first table have a field: what is on top, which stays there. */
static void keep(lua_State *state, int owner, int field)
{
    lua_getiuservalue(state, owner, 1);
    lua_pushvalue(state, -2);
    lua_rawseti(state, -2, field);
    lua_pop(state, 1);
}

static void make_weak(lua_State *state, const struct object *object, int owner, int fields)
{
    lua_createtable(state, fields, 0);
    lua_setiuservalue(state, owner, 1);
    push_weak_table(state, object->turn % 2 == 0 ? "v" : "kv", object->turn % 4 < 2 ? fields : 0);
    lua_setiuservalue(state, owner, 2);
}

/* Pushes the second table and the key of a field there. The first two fields have keys that could die, and some have
** keys that only the table has.
*/
static void push_weak_place(lua_State *state, int owner, int field)
{
    lua_getiuservalue(state, owner, 2);
    if (field == 1)
        lua_pushvalue(state, owner);
    else if (field == 2)
        lua_getiuservalue(state, owner, 1);
    else if (field % 2 == 0)
        lua_pushfstring(state, "a key of more than forty letters that nobody else has: %d", field);
    else
        lua_pushinteger(state, field);
}

/* What was overwritten may be in the second table still, and lives then. */
static void load_from_weak(lua_State *state, const struct object *object, int owner, int field)
{
    (void)object;
    lua_getiuservalue(state, owner, 1);
    bool is_nil = lua_rawgeti(state, -1, field) == LUA_TNIL;
    push_weak_place(state, owner, field);
    lua_rawget(state, -2);
    const struct object *found = lua_touserdata(state, -1);
    if (is_nil && (found == NULL || is_alive(found)))
        lua_pushnil(state);
}

/* Strings are in the second table alone, since they are never dropped from a weak table. */
static void store_in_weak(lua_State *state, const struct object *object, int owner, int field)
{
    int value = lua_gettop(state);
    if (lua_type(state, value) == LUA_TSTRING)
        lua_pushboolean(state, 1);
    else
        lua_pushvalue(state, value);
    keep(state, owner, field);
    if (lua_isnil(state, value))
        return;
    push_weak_place(state, owner, field);
    int table = lua_gettop(state) - 1;
    lua_pushvalue(state, value);
    assign(state, table, (unsigned)field + object->turn);
}

const struct keeping WEAK_KEEPING = {two_user_values, make_weak, load_from_weak, store_in_weak};

/* Pushes the objects that finalizers ask for: a table with weak values. */
static void push_owners(lua_State *state)
{
    if (lua_rawgetp(state, LUA_REGISTRYINDEX, &OWNERS) == LUA_TNIL) {
        push_weak_table(state, "v", 0);
        lua_pushvalue(state, -1);
        lua_rawsetp(state, LUA_REGISTRYINDEX, &OWNERS);
    }
}

/* What a weak table had that only its finalizer brings back is gone as that is called. Gives it something anew. */
static void check_litter(lua_State *state)
{
    lua_rawgeti(state, 1, LITTER);
    if (lua_rawgeti(state, -1, 1) != LUA_TNIL && !is_closing)
        abort();
    lua_createtable(state, 1, 0);
    lua_rawseti(state, -3, 1);
}

/* Lets the first table of an object have its second, or have it no longer. */
static void hold(lua_State *state, int owner, int table, bool is_held)
{
    lua_getiuservalue(state, owner, 1);
    if (is_held)
        lua_pushvalue(state, table);
    else
        lua_pushnil(state);
    lua_rawseti(state, -2, HELD);
    lua_pop(state, 1);
}

static enum life life_of(const struct object *object)
{
    return (enum life)(object->turn % LIVES);
}

/* Lets a table have its finalizer again, or be held, if the object lives whose fields it has. Some of these finalizers
** fail.
*/
static int revive(lua_State *state)
{
    static unsigned calls;
    check_litter(state);
    push_owners(state);
    lua_rawgeti(state, 1, SERIAL);
    if (lua_rawget(state, -2) == LUA_TNIL)
        return 0;
    if (life_of(lua_touserdata(state, -1)) == HELD_BY_FINALIZER) {
        hold(state, lua_gettop(state), 1, true);
        return 0;
    }
    lua_getmetatable(state, 1);
    lua_setmetatable(state, 1);
    if (++calls % FAILING != 0)
        return 0;
    lua_settop(state, 1);
    return lua_error(state);
}

static void push_finalizer(lua_State *state)
{
    if (lua_rawgetp(state, LUA_REGISTRYINDEX, &FINALIZER) == LUA_TNIL) {
        lua_createtable(state, 0, 1);
        lua_pushcfunction(state, revive);
        lua_setfield(state, -2, "__gc");
        lua_pushvalue(state, -1);
        lua_rawsetp(state, LUA_REGISTRYINDEX, &FINALIZER);
    }
}

/* The second table is a weak key, and nothing else leads to it, unless it is held. So it dies in each cycle. Its
** finalizer revives it, and until then a weak key stays, and what it leads to: a third table, which may have some of
** the numbers.
*/
static void make_finalized(lua_State *state, const struct object *object, int owner, int fields)
{
    static lua_Integer serial;
    lua_createtable(state, fields, 0);
    lua_setiuservalue(state, owner, 1);
    push_owners(state);
    lua_pushvalue(state, owner);
    lua_rawseti(state, -2, ++serial);
    lua_settop(state, owner);
    push_weak_table(state, "k", 0);
    push_weak_table(state, object->turn % 2 == 0 ? "v" : "kv", 1);
    lua_createtable(state, fields, 0);
    lua_createtable(state, fields, 2);
    lua_pushinteger(state, serial);
    lua_rawseti(state, -2, SERIAL);
    lua_pushvalue(state, owner + 2);
    lua_rawseti(state, -2, LITTER);
    if (life_of(object) == LATE) {
        hold(state, owner, owner + 4, true);
    } else {
        push_finalizer(state);
        lua_setmetatable(state, owner + 4);
    }
    lua_settop(state, owner + 4);
    lua_insert(state, -2);
    lua_rawset(state, owner + 1);
    lua_settop(state, owner + 1);
    lua_setiuservalue(state, owner, 2);
}

/* Pushes the second table, and above it the one that has a field. */
static void push_finalized(lua_State *state, const struct object *object, int owner, int field)
{
    lua_getiuservalue(state, owner, 2);
    lua_pushnil(state);
    if (lua_next(state, -2) == 0)
        abort();
    if (life_of(object) != DYING || (uint64_t)field > object->numbers || field % 2 == 0)
        lua_pushvalue(state, -2);
}

static void load_from_finalized(lua_State *state, const struct object *object, int owner, int field)
{
    push_finalized(state, object, owner, field);
    lua_rawgeti(state, -1, field);
}

/* A table that is held is so no longer, and gets its finalizer again. One that isn't is held, if its life changes. */
static void change_life(lua_State *state, const struct object *object, int owner, int table)
{
    lua_getiuservalue(state, owner, 1);
    bool is_held = lua_rawgeti(state, -1, HELD) != LUA_TNIL;
    if (is_held) {
        push_finalizer(state);
        lua_setmetatable(state, table);
    }
    if (is_held || life_of(object) == CHANGING)
        hold(state, owner, table, !is_held);
}

/* Objects are in the first table too, or else their finalizers would find them dead. */
static void store_in_finalized(lua_State *state, const struct object *object, int owner, int field)
{
    int value = lua_gettop(state);
    if (lua_isnil(state, value) || lua_isuserdata(state, value))
        keep(state, owner, field);
    push_finalized(state, object, owner, field);
    int table = lua_gettop(state);
    change_life(state, object, owner, value + 2);
    lua_settop(state, table);
    lua_pushinteger(state, field);
    lua_pushvalue(state, value);
    assign(state, table, (unsigned)field + object->turn);
}

const struct keeping FINALISED_KEEPING = {two_user_values, make_finalized, load_from_finalized, store_in_finalized};
