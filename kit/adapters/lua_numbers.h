/* How the adapter for Lua keeps numbers: as texts, in strings and in what a compiler makes of them. */
#ifndef LUA_NUMBERS_H
#define LUA_NUMBERS_H

#include <lua.h>
#include <stdint.h>

/* Pushes what has a number. Turns take different ways. */
void push_number(lua_State *state, uint64_t number, unsigned turn);
/* The number that is on top: nothing has 0. Leaves anything on the stack. */
uint64_t number_on_top(lua_State *state);

#endif
