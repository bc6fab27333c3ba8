/* What the adapter for Lua does in the language: stores of the interpreter, closures and frames. */
#ifndef LUA_CODE_H
#define LUA_CODE_H

#include <lua.h>

/* The functions of the chunk, which says what each does. */
enum code { SET, SET_ONE, SET_FIRST, SET_GLOBAL, SET_BY_MOVE, CELL, FRAME, IDENTITY, REBUILD, JOIN, JOIN_ALL, DEEP };

/* Compiles the chunk. A table that it builds is half done as it calls `work`. */
void open_code(lua_State *state, lua_CFunction work);
void push_code(lua_State *state, enum code code);

#endif
