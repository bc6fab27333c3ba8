/* How objects of the adapter for Lua keep their fields, and those that do so in user values, upvalues and threads. */
#include "lua_fields.h"

#include "lua_code.h"

#include <lauxlib.h>

/* Of more fields, those behind have no closure and no frame of their own. */
enum { MOST_CELLS = 16, MOST_FRAMES = 8 };
/* A coroutine of frames: how it differs by its object's turn. */
enum { KEPT, FORGOTTEN, ENDING, WITHOUT_CLOSURES, WAYS_OF_FRAMES };
/* The place of the variable among those of the frame. */
enum { VARIABLE = 3 };

int fields_of(const struct object *object)
{
    return (int)(object->references + object->numbers);
}

int one_user_value(const struct object *object, int fields)
{
    (void)object, (void)fields;
    return 1;
}

static void push_nils(lua_State *state, int count)
{
    for (int i = 0; i < count; i++)
        lua_pushnil(state);
}

static int all_user_values(const struct object *object, int fields)
{
    (void)object;
    return fields;
}

static void load_user_value(lua_State *state, const struct object *object, int owner, int field)
{
    (void)object;
    lua_getiuservalue(state, owner, field);
}

static void store_user_value(lua_State *state, const struct object *object, int owner, int field)
{
    (void)object;
    lua_setiuservalue(state, owner, field);
}

static const struct keeping USER_VALUE_KEEPING = {all_user_values, NULL, load_user_value, store_user_value};

int reach_upvalue(lua_State *state)
{
    int upvalue = lua_upvalueindex((int)lua_tointeger(state, 1));
    if (lua_gettop(state) == 1) {
        lua_pushvalue(state, upvalue);
        return 1;
    }
    lua_copy(state, 2, upvalue);
    return 0;
}

static void make_upvalues(lua_State *state, const struct object *object, int owner, int fields)
{
    (void)object;
    push_nils(state, fields);
    lua_pushcclosure(state, reach_upvalue, fields);
    lua_setiuservalue(state, owner, 1);
}

static void load_upvalue(lua_State *state, const struct object *object, int owner, int field)
{
    (void)object;
    lua_getiuservalue(state, owner, 1);
    lua_getupvalue(state, -1, field);
}

static void store_upvalue(lua_State *state, const struct object *object, int owner, int field)
{
    lua_getiuservalue(state, owner, 1);
    lua_insert(state, -2);
    if ((field + object->turn) % 2 == 0) {
        lua_setupvalue(state, -2, field);
    } else {
        lua_pushinteger(state, field);
        lua_insert(state, -2);
        lua_call(state, 2, 0);
    }
}

const struct keeping UPVALUE_KEEPING = {one_user_value, make_upvalues, load_upvalue, store_upvalue};

/* A coroutine that was never run, or one that has ended: its results stay on its stack. */
static void make_coroutine(lua_State *state, const struct object *object, int owner, int fields)
{
    int results;
    lua_State *coroutine = lua_newthread(state);
    lua_checkstack(coroutine, fields + LUA_MINSTACK);
    if (object->turn % 2 == 1) {
        push_code(state, IDENTITY);
        lua_xmove(state, coroutine, 1);
    }
    push_nils(coroutine, fields);
    if (object->turn % 2 == 1)
        lua_resume(coroutine, state, fields, &results);
    lua_setiuservalue(state, owner, 1);
}

static void load_from_coroutine(lua_State *state, const struct object *object, int owner, int field)
{
    (void)object;
    lua_getiuservalue(state, owner, 1);
    lua_State *coroutine = lua_tothread(state, -1);
    lua_pushvalue(coroutine, field);
    lua_xmove(coroutine, state, 1);
}

static void store_in_coroutine(lua_State *state, const struct object *object, int owner, int field)
{
    (void)object;
    lua_getiuservalue(state, owner, 1);
    lua_State *coroutine = lua_tothread(state, -1);
    lua_insert(state, -2);
    lua_xmove(state, coroutine, 1);
    lua_replace(coroutine, field);
}

const struct keeping COROUTINE_KEEPING = {one_user_value, make_coroutine, load_from_coroutine, store_in_coroutine};

static void make_table(lua_State *state, const struct object *object, int owner, int fields)
{
    (void)object;
    lua_createtable(state, fields, 0);
    lua_setiuservalue(state, owner, 1);
}

/* Pushes what a closure keeps. */
static void load_from_cell(lua_State *state, int field)
{
    if (field % 2 == 0)
        lua_getupvalue(state, -1, 1);
    else
        lua_call(state, 0, 1);
}

static void call_with(lua_State *state, int value)
{
    lua_pushvalue(state, value);
    lua_pushboolean(state, 1);
    lua_call(state, 2, 0);
}

static void push_cell(lua_State *state, int value)
{
    push_code(state, CELL);
    lua_pushvalue(state, value);
    lua_call(state, 1, 1);
}

/* Gives the closure on top a value: by itself, through C, or by the variable of another closure. */
static void store_in_cell(lua_State *state, int value, unsigned turn)
{
    switch (turn % 3) {
    case 0:
        call_with(state, value);
        break;
    case 1:
        lua_pushvalue(state, value);
        lua_setupvalue(state, -2, 1);
        break;
    default:
        push_cell(state, value);
        lua_upvaluejoin(state, -2, 1, -1, 1);
    }
}

static void load_by_cells(lua_State *state, const struct object *object, int owner, int field)
{
    (void)object;
    lua_getiuservalue(state, owner, 1);
    if (lua_rawgeti(state, -1, field) == LUA_TFUNCTION && field <= MOST_CELLS)
        load_from_cell(state, field);
}

static void store_by_cells(lua_State *state, const struct object *object, int owner, int field)
{
    int value = lua_gettop(state);
    unsigned turn = (unsigned)field + object->turn;
    lua_getiuservalue(state, owner, 1);
    if (field > MOST_CELLS) {
        lua_pushvalue(state, value);
        lua_rawseti(state, -2, field);
    } else if (lua_rawgeti(state, -1, field) != LUA_TFUNCTION || turn % 4 == 3) {
        push_cell(state, value);
        lua_rawseti(state, value + 1, field);
    } else {
        store_in_cell(state, value, turn);
    }
}

const struct keeping CELL_KEEPING = {one_user_value, make_table, load_by_cells, store_by_cells};

static int user_values_by_frames(const struct object *object, int fields)
{
    (void)object, (void)fields;
    return 2;
}

/* A table with the closures, and the coroutine. */
static void make_frames(lua_State *state, const struct object *object, int owner, int fields)
{
    int way = object->turn % WAYS_OF_FRAMES, results;
    make_table(state, object, owner, fields);
    if (fields == 0)
        return;
    lua_State *coroutine = lua_newthread(state);
    push_code(state, FRAME);
    lua_pushinteger(state, fields < MOST_FRAMES ? fields : MOST_FRAMES);
    if (way == WITHOUT_CLOSURES)
        lua_pushnil(state);
    else
        lua_getiuservalue(state, owner, 1);
    lua_xmove(state, coroutine, 3);
    lua_resume(coroutine, state, 2, &results);
    if (way != FORGOTTEN)
        lua_setiuservalue(state, owner, 2);
}

/* Finds the frame of a field. Pushes the coroutine. */
static lua_State *frame_of(lua_State *state, int owner, int field, lua_Debug *frame)
{
    lua_getiuservalue(state, owner, 2);
    lua_State *coroutine = lua_tothread(state, -1);
    lua_getstack(coroutine, field, frame);
    return coroutine;
}

static void load_by_frames(lua_State *state, const struct object *object, int owner, int field)
{
    lua_Debug frame;
    if (field <= MOST_FRAMES && object->turn % WAYS_OF_FRAMES == WITHOUT_CLOSURES) {
        lua_State *coroutine = frame_of(state, owner, field, &frame);
        lua_getlocal(coroutine, &frame, VARIABLE);
        lua_xmove(coroutine, state, 1);
        return;
    }
    lua_getiuservalue(state, owner, 1);
    lua_rawgeti(state, -1, field);
    if (field <= MOST_FRAMES)
        load_from_cell(state, field);
}

/* The frames return, so that the closures get their variables for themselves. */
static void end_frames(lua_State *state, int owner)
{
    int results;
    lua_getiuservalue(state, owner, 2);
    lua_State *coroutine = lua_tothread(state, -1);
    if (lua_status(coroutine) == LUA_YIELD)
        lua_resume(coroutine, state, 0, &results);
    lua_pop(state, 1);
}

static void store_by_frames(lua_State *state, const struct object *object, int owner, int field)
{
    int value = lua_gettop(state), way = object->turn % WAYS_OF_FRAMES;
    lua_Debug frame;
    if (field <= MOST_FRAMES && way == WITHOUT_CLOSURES) {
        lua_State *coroutine = frame_of(state, owner, field, &frame);
        lua_pushvalue(state, value);
        lua_xmove(state, coroutine, 1);
        lua_setlocal(coroutine, &frame, VARIABLE);
        return;
    }
    lua_getiuservalue(state, owner, 1);
    if (field > MOST_FRAMES) {
        lua_insert(state, -2);
        lua_rawseti(state, -2, field);
        return;
    }
    lua_rawgeti(state, -1, field);
    store_in_cell(state, value, way == ENDING ? (unsigned)field : (unsigned)field % 2);
    if (way == ENDING && field % 3 == 1)
        end_frames(state, owner);
}

const struct keeping FRAME_KEEPING = {user_values_by_frames, make_frames, load_by_frames, store_by_frames};

static const struct keeping *const KEEPINGS[KINDS] = {
    [ARRAY_PART] = &ARRAY_KEEPING, [HASH_PART] = &HASH_KEEPING, [USER_VALUES] = &USER_VALUE_KEEPING,
    [UPVALUES] = &UPVALUE_KEEPING, [COROUTINE] = &COROUTINE_KEEPING, [EPHEMERON] = &EPHEMERON_KEEPING,
    [CELLS] = &CELL_KEEPING, [FRAMES] = &FRAME_KEEPING, [WEAK_VALUES] = &WEAK_KEEPING,
    [METATABLE] = &METATABLE_KEEPING, [FINALISED] = &FINALISED_KEEPING, [PROXY] = &PROXY_KEEPING,
    [CONSTRUCTED] = &CONSTRUCTED_KEEPING,
};

void push_object(lua_State *state, struct object object)
{
    int fields = fields_of(&object);
    const struct keeping *keeping = KEEPINGS[object.kind];
    struct object *made = lua_newuserdatauv(state, sizeof *made, keeping->user_values(&object, fields));
    int owner = lua_gettop(state);
    *made = object;
    if (keeping->make != NULL)
        keeping->make(state, made, owner, fields);
    lua_settop(state, owner);
}

void load(lua_State *state, int field)
{
    int owner = lua_gettop(state);
    const struct object *object = lua_touserdata(state, owner);
    KEEPINGS[object->kind]->load(state, object, owner, field);
}

void store(lua_State *state, int field)
{
    int owner = lua_gettop(state) - 1;
    const struct object *object = lua_touserdata(state, owner);
    KEEPINGS[object->kind]->store(state, object, owner, field);
}

bool is_alive(const struct object *object)
{
    return (unsigned)object->kind < KINDS;
}
