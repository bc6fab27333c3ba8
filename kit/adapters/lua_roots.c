/* Where the adapter for Lua keeps its roots. */
#include "lua_roots.h"

#include "lua_fields.h"

#include <stdio.h>

/* Even roots are on the stack. Others are in a table, in that of all booleans, in a closure, and global variables. */
enum { IN_TABLE = 1, IN_METATABLE = 3, IN_CLOSURE = 5, GLOBAL = 7, PLACES = 8 };
enum { NAME = 16 };

/* The names of global variables. */
static char names[ROOTS / PLACES][NAME];

void open_roots(lua_State *state)
{
    lua_createtable(state, ROOTS, 0);
    for (int i = 0; i < ROOTS / PLACES; i++) {
        snprintf(names[i], NAME, "root %d", i);
        lua_pushnil(state);
    }
    lua_pushcclosure(state, reach_upvalue, ROOTS / PLACES);
    lua_settop(state, TOP);
    lua_pushboolean(state, true);
    lua_createtable(state, ROOTS, 0);
    lua_setmetatable(state, -2);
    lua_pop(state, 1);
}

/* Pushes the table that has a root. */
static void push_table(lua_State *state, int root)
{
    if (root % PLACES == IN_TABLE) {
        lua_pushvalue(state, TABLE);
        return;
    }
    lua_pushboolean(state, true);
    lua_getmetatable(state, -1);
}

void push_root(lua_State *state, int root)
{
    switch (root % PLACES) {
    case IN_TABLE:
    case IN_METATABLE:
        push_table(state, root);
        lua_rawgeti(state, -1, root);
        break;
    case IN_CLOSURE:
        lua_getupvalue(state, CLOSURE, 1 + root / PLACES);
        break;
    case GLOBAL:
        lua_getglobal(state, names[root / PLACES]);
        break;
    default:
        lua_pushvalue(state, FIRST_ROOT + root / 2);
    }
}

void set_root(lua_State *state, int root)
{
    switch (root % PLACES) {
    case IN_TABLE:
    case IN_METATABLE:
        push_table(state, root);
        lua_pushvalue(state, root % PLACES == IN_TABLE ? -2 : -3);
        lua_rawseti(state, -2, root);
        break;
    case IN_CLOSURE:
        lua_pushvalue(state, CLOSURE);
        lua_pushinteger(state, 1 + root / PLACES);
        lua_pushvalue(state, -3);
        lua_call(state, 2, 0);
        break;
    case GLOBAL:
        lua_pushvalue(state, -1);
        lua_setglobal(state, names[root / PLACES]);
        break;
    default:
        lua_copy(state, -1, FIRST_ROOT + root / 2);
    }
}

void renew_roots(lua_State *state)
{
    lua_pushboolean(state, true);
    lua_createtable(state, ROOTS, 0);
    for (int root = IN_METATABLE; root < ROOTS; root += PLACES) {
        push_root(state, root);
        lua_rawseti(state, TOP + 2, root);
        lua_settop(state, TOP + 2);
    }
    lua_setmetatable(state, -2);
    lua_settop(state, TOP);
}
