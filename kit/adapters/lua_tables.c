/* Objects of the adapter for Lua that keep their fields in tables, and all ways to store in a table. */
#include "lua_fields.h"

#include "lua_code.h"

#include <lauxlib.h>

/* A hash part of so many places, and how far apart integers are that have the same place there. */
enum { PLACES = 64, SAME_PLACE = PLACES - 1 };
/* An object of no more fields gets a new table with each store. */
enum { FEW = 6 };

/* Calls a function of the language with a table, the key, and the value above it, in this order. */
static void assign_by_code(lua_State *state, int table, int key, enum code code)
{
    push_code(state, code);
    lua_pushvalue(state, table);
    if (code == SET || code == SET_BY_MOVE)
        lua_pushvalue(state, key);
    lua_pushvalue(state, key + 1);
    lua_call(state, code == SET || code == SET_BY_MOVE ? 3 : 2, 0);
    lua_settop(state, key - 1);
}

/* By the interface for keys of one type. */
static void assign_by_type(lua_State *state, int table, int key)
{
    switch (lua_type(state, key)) {
    case LUA_TSTRING:
        lua_setfield(state, table, lua_tostring(state, key));
        break;
    case LUA_TLIGHTUSERDATA:
        lua_rawsetp(state, table, lua_touserdata(state, key));
        break;
    default:
        if (!lua_isinteger(state, key)) {
            lua_rawset(state, table);
            return;
        }
        lua_seti(state, table, lua_tointeger(state, key));
    }
    lua_pop(state, 1);
}

/* By an instruction that has the key in it, where it is a key for that. */
static void assign_constant(lua_State *state, int table, int key)
{
    if (lua_isinteger(state, key) && lua_tointeger(state, key) == 1)
        assign_by_code(state, table, key, SET_ONE);
    else if (lua_isinteger(state, key) && lua_tointeger(state, key) > 0)
        assign_by_code(state, table, key, SET_BY_MOVE);
    else
        lua_settable(state, table);
}

void assign(lua_State *state, int table, unsigned turn)
{
    int key = lua_gettop(state) - 1;
    switch (turn % 5) {
    case 0:
        lua_rawset(state, table);
        break;
    case 1:
        assign_by_type(state, table, key);
        break;
    case 2:
        lua_settable(state, table);
        break;
    case 3:
        assign_by_code(state, table, key, SET);
        break;
    default:
        assign_constant(state, table, key);
    }
}

/* Gives a table what is on top, as a field. */
static void assign_field(lua_State *state, const struct object *object, int table, int field)
{
    lua_pushinteger(state, field);
    lua_insert(state, -2);
    assign(state, table, (unsigned)field + object->turn);
}

/* Some arrays look shorter than they are, and others shrink. */
enum { IS_MEASURED = 1, SHRINKS = 2, SORTS = 3 };
/* An array that is measured has so many elements. So many are true, the next is nil, and fields lie behind it. */
enum { MEASURED = 16, LENGTH = MEASURED / 2 + 1 };

static bool is_measured(const struct object *object)
{
    return object->turn % SORTS == IS_MEASURED && fields_of(object) < MEASURED - LENGTH;
}

static int place_of(const struct object *object, int field)
{
    return is_measured(object) ? LENGTH + 1 + field : field;
}

static void make_table(lua_State *state, const struct object *object, int owner, int fields)
{
    (void)object;
    lua_createtable(state, fields, 0);
    lua_setiuservalue(state, owner, 1);
}

static void make_array(lua_State *state, const struct object *object, int owner, int fields)
{
    if (!is_measured(object)) {
        make_table(state, object, owner, fields);
        return;
    }
    lua_createtable(state, MEASURED, 0);
    for (int i = 1; i <= LENGTH; i++) {
        lua_pushboolean(state, true);
        lua_rawseti(state, -2, i);
    }
    lua_setiuservalue(state, owner, 1);
}

static void load_from_table(lua_State *state, const struct object *object, int owner, int field)
{
    (void)object;
    lua_getiuservalue(state, owner, 1);
    lua_rawgeti(state, -1, field);
}

static void load_from_array(lua_State *state, const struct object *object, int owner, int field)
{
    load_from_table(state, object, owner, place_of(object, field));
}

/* An array that is asked for its length has that for its size from then on, as it seems. One that is mostly empty makes
** room for a hash part.
*/
static void store_in_array(lua_State *state, const struct object *object, int owner, int field)
{
    lua_getiuservalue(state, owner, 1);
    lua_insert(state, -2);
    int table = lua_gettop(state) - 1;
    if (fields_of(object) > FEW_FIELDS)
        lua_rawseti(state, table, field);
    else
        assign_field(state, object, table, place_of(object, field));
    if (is_measured(object))
        lua_rawlen(state, table);
    if (object->turn % SORTS == SHRINKS) {
        lua_pushinteger(state, field);
        lua_setfield(state, table, "last");
    }
}

const struct keeping ARRAY_KEEPING = {one_user_value, make_array, load_from_array, store_in_array};

/* Half of the hash parts have many places, and all their keys want the same one. */
static bool is_crowded(const struct object *object)
{
    return object->turn % 2 == 1;
}

static void make_hash(lua_State *state, const struct object *object, int owner, int fields)
{
    (void)fields;
    lua_createtable(state, 0, is_crowded(object) ? PLACES : 0);
    lua_setiuservalue(state, owner, 1);
}

/* Keys are of all types that have no barrier of their own, and strings. */
static void push_key(lua_State *state, const struct object *object, int field)
{
    if (is_crowded(object)) {
        lua_pushlightuserdata(state, (void *)(uintptr_t)(SAME_PLACE * field));
        return;
    }
    switch (field % 5) {
    case 0:
        lua_pushfstring(state, "a field with a name of more than forty letters: %d", field);
        break;
    case 1:
        lua_pushfstring(state, field == 1 ? "first" : "field %d", field);
        break;
    case 2:
        lua_pushnumber(state, field % 2 == 0 ? field : field + 0.5);
        break;
    case 3:
        lua_pushinteger(state, -field);
        break;
    default:
        lua_pushfstring(state, "field %d", field);
    }
}

static void load_from_hash(lua_State *state, const struct object *object, int owner, int field)
{
    lua_getiuservalue(state, owner, 1);
    push_key(state, object, field);
    lua_rawget(state, -2);
}

static void store_in_hash(lua_State *state, const struct object *object, int owner, int field)
{
    int value = lua_gettop(state);
    lua_getiuservalue(state, owner, 1);
    push_key(state, object, field);
    lua_pushvalue(state, value);
    if (field == 1 && !is_crowded(object))
        assign_by_code(state, value + 1, value + 2, object->turn % 4 == 0 ? SET_FIRST : SET_GLOBAL);
    else
        assign(state, value + 1, (unsigned)field + object->turn / 2);
}

const struct keeping HASH_KEEPING = {one_user_value, make_hash, load_from_hash, store_in_hash};

/* A metatable has the fields: that of the object, with or without user values, or that of a table. */
enum { OF_BARE_OBJECT, OF_TABLE, OF_OBJECT, BEARERS };

static int user_values_by_metatable(const struct object *object, int fields)
{
    (void)fields;
    return object->turn % BEARERS == OF_BARE_OBJECT ? 0 : 1;
}

static int push_bearer(lua_State *state, const struct object *object, int owner)
{
    if (object->turn % BEARERS == OF_TABLE)
        lua_getiuservalue(state, owner, 1);
    else
        lua_pushvalue(state, owner);
    return lua_gettop(state);
}

static void make_metatable(lua_State *state, const struct object *object, int owner, int fields)
{
    if (object->turn % BEARERS == OF_TABLE) {
        lua_createtable(state, 0, 0);
        lua_setiuservalue(state, owner, 1);
    }
    int bearer = push_bearer(state, object, owner);
    lua_createtable(state, fields, 0);
    lua_setmetatable(state, bearer);
}

static void load_from_metatable(lua_State *state, const struct object *object, int owner, int field)
{
    lua_getmetatable(state, push_bearer(state, object, owner));
    lua_rawgeti(state, -1, field);
}

/* Pushes a table with what another has up to a field. */
static void push_copy(lua_State *state, int table, int fields)
{
    lua_createtable(state, fields, 0);
    for (int field = 1; field <= fields; field++) {
        lua_rawgeti(state, table, field);
        lua_rawseti(state, -2, field);
    }
}

static void store_in_metatable(lua_State *state, const struct object *object, int owner, int field)
{
    int value = lua_gettop(state), bearer = push_bearer(state, object, owner), fields = fields_of(object);
    lua_getmetatable(state, bearer);
    if (fields <= FEW)
        push_copy(state, bearer + 1, fields);
    int metatable = lua_gettop(state);
    lua_pushvalue(state, value);
    lua_rawseti(state, metatable, field);
    if (fields > FEW)
        return;
    lua_pushnil(state);
    lua_setmetatable(state, bearer);
    lua_setmetatable(state, bearer);
}

const struct keeping METATABLE_KEEPING = {user_values_by_metatable, make_metatable, load_from_metatable,
                                          store_in_metatable};

/* Stores in the table where the fields of a proxy are looked for. */
static int store_behind(lua_State *state)
{
    luaL_getmetafield(state, 1, "__index");
    lua_replace(state, 1);
    lua_rawset(state, 1);
    return 0;
}

/* A table that stays empty: its metatable says where its fields are looked for, and where they go, or by a function. */
static void make_proxy(lua_State *state, const struct object *object, int owner, int fields)
{
    lua_createtable(state, 0, 0);
    lua_createtable(state, 0, 2);
    lua_createtable(state, fields, 0);
    lua_pushvalue(state, -1);
    lua_setfield(state, -3, "__index");
    if (object->turn % 2 == 1)
        lua_pushcfunction(state, store_behind);
    lua_setfield(state, owner + 2, "__newindex");
    lua_settop(state, owner + 2);
    lua_setmetatable(state, -2);
    lua_setiuservalue(state, owner, 1);
}

/* Through the metatable, or from where that leads. */
static void load_from_proxy(lua_State *state, const struct object *object, int owner, int field)
{
    lua_getiuservalue(state, owner, 1);
    if ((field + object->turn) % 2 == 0)
        luaL_getmetafield(state, -1, "__index");
    lua_geti(state, -1, field);
}

/* No way to store passes by the metatable. */
static void store_in_proxy(lua_State *state, const struct object *object, int owner, int field)
{
    enum { FIRST_WAY = 1, WAYS = 3 };
    lua_getiuservalue(state, owner, 1);
    lua_pushinteger(state, field);
    lua_rotate(state, -3, 2);
    assign(state, lua_gettop(state) - 2, FIRST_WAY + ((unsigned)field + object->turn) % WAYS);
}

const struct keeping PROXY_KEEPING = {one_user_value, make_proxy, load_from_proxy, store_in_proxy};

/* A constructor makes a table with all fields anew. */
static void store_in_constructed(lua_State *state, const struct object *object, int owner, int field)
{
    int value = lua_gettop(state), fields = fields_of(object);
    lua_getiuservalue(state, owner, 1);
    lua_pushvalue(state, value);
    lua_rawseti(state, value + 1, field);
    if (fields > FEW)
        return;
    push_code(state, REBUILD);
    for (int each = 1; each <= fields; each++)
        lua_rawgeti(state, value + 1, each);
    lua_call(state, fields, 1);
    lua_setiuservalue(state, owner, 1);
}

const struct keeping CONSTRUCTED_KEEPING = {one_user_value, make_table, load_from_table, store_in_constructed};
