/* Where the adapter for Lua keeps its roots: on the stack and in other places from which a collector marks. */
#ifndef LUA_ROOTS_H
#define LUA_ROOTS_H

#include "front.h"

#include <lua.h>

/* What lies lowest on the stack: a table and a closure with some of the roots, and then the even ones. */
enum { TABLE = 1, CLOSURE, FIRST_ROOT, TOP = FIRST_ROOT + ROOTS / 2 - 1 };

/* Makes the places. The stack has been empty. */
void open_roots(lua_State *state);
/* Lets booleans have another metatable, with the same roots. */
void renew_roots(lua_State *state);
/* Pushes what a root names. */
void push_root(lua_State *state, int root);
/* Lets a root name what is on top. May leave it there. */
void set_root(lua_State *state, int root);

#endif
