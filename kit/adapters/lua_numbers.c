/* How the adapter for Lua keeps numbers. */
#include "lua_numbers.h"

#include "lua_code.h"

#include <inttypes.h>
#include <lauxlib.h>
#include <stdbool.h>
#include <stdio.h>
#include <stdlib.h>
#include <string.h>

enum { LONG_STRING = 48, CHUNK = 256, BINARY = 4096 };
enum { COMPILED = 1, JOINED = 2, CONVERTED = 3, ALL_JOINED = 4, CONCATENATED = 6, WAYS = 8 };

/* What a function is written into. */
struct binary {
    size_t size;
    char bytes[BINARY];
};

static void push_joined(lua_State *state, const char *digits, enum code code)
{
    size_t half = strlen(digits) / 2;
    push_code(state, code);
    lua_pushlstring(state, digits, half);
    lua_pushstring(state, digits + half);
    lua_call(state, 2, 1);
}

static void push_concatenated(lua_State *state, const char *digits)
{
    size_t half = strlen(digits) / 2;
    lua_pushlstring(state, digits, half);
    lua_pushstring(state, digits + half);
    lua_concat(state, 2);
}

static int write_binary(lua_State *state, const void *bytes, size_t size, void *to)
{
    struct binary *binary = to;
    (void)state;
    if (binary->size + size > BINARY)
        return 1;
    memcpy(binary->bytes + binary->size, bytes, size);
    binary->size += size;
    return 0;
}

/* Pushes a function. The number is the name of its source, and in a function within: in names and as a constant. Or
** pushes the function within, which then is all that has them.
*/
static void push_compiled(lua_State *state, const char *digits, bool is_reloaded, bool is_within)
{
    char chunk[CHUNK], name[LONG_STRING + 2];
    struct binary binary;
    int size = snprintf(chunk, sizeof chunk, "local v%s = missing return function(p%s) return v%s, '%s' end", digits,
                        digits, digits, digits);
    snprintf(name, sizeof name, "=%s", digits);
    luaL_loadbuffer(state, chunk, (size_t)size, name);
    binary.size = 0;
    if (is_reloaded && lua_dump(state, write_binary, &binary, 0) == 0) {
        luaL_loadbuffer(state, binary.bytes, binary.size, name);
        lua_replace(state, -2);
    }
    if (is_within)
        lua_call(state, 0, 1);
}

void push_number(lua_State *state, uint64_t number, unsigned turn)
{
    char digits[LONG_STRING + 1];
    snprintf(digits, sizeof digits, "%0*" PRIu64, number % 2 == 0 ? LONG_STRING : 1, number);
    switch (turn % WAYS) {
    case JOINED:
        push_joined(state, digits, JOIN);
        break;
    case ALL_JOINED:
        push_joined(state, digits, JOIN_ALL);
        break;
    case CONCATENATED:
        push_concatenated(state, digits);
        break;
    case CONVERTED:
        lua_pushinteger(state, (lua_Integer)number);
        lua_tostring(state, -1);
        break;
    case COMPILED:
        push_compiled(state, digits, turn / WAYS % 2 == 1, turn / WAYS % 4 < 2);
        break;
    default:
        lua_pushstring(state, digits);
    }
}

static uint64_t number_in(const char *digits)
{
    return digits != NULL ? strtoull(digits, NULL, 10) : 0;
}

/* The number in a name behind its first letter. */
static uint64_t number_behind(const char *name)
{
    return name != NULL && name[0] != '\0' ? number_in(name + 1) : 0;
}

/* All texts of a function have the same number. If one differs it is the one that is read. */
static uint64_t number_compiled(lua_State *state)
{
    lua_Debug about;
    lua_pushvalue(state, -1);
    lua_getinfo(state, ">S", &about);
    uint64_t number = number_behind(about.source);
    if (strcmp(about.what, "main") == 0)
        lua_call(state, 0, 1);
    uint64_t upvalue = number_behind(lua_getupvalue(state, -1, 1));
    lua_pop(state, 1);
    lua_pushvalue(state, -1);
    uint64_t parameter = number_behind(lua_getlocal(state, NULL, 1));
    lua_pop(state, 1);
    lua_call(state, 0, 2);
    uint64_t constant = number_in(lua_tostring(state, -1));
    if (upvalue != number)
        return upvalue;
    return parameter != number ? parameter : constant;
}

uint64_t number_on_top(lua_State *state)
{
    return lua_isfunction(state, -1) ? number_compiled(state) : number_in(lua_tostring(state, -1));
}
