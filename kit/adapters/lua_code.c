/* What the adapter for Lua does in the language. */
#include "lua_code.h"

#include <lauxlib.h>
#include <lualib.h>

/* Where the registry has the functions: from this integer on. */
enum { FIRST = 16 };

static const char CHUNK[] =
    "local pause, work, fresh, library = ...\n"
    "local move, concat = library.move, library.concat\n"
    /* A table gets a value by an instruction: of any key, of a constant integer, of a constant string. */
    "local function set(t, k, v) t[k] = v end\n"
    "local function set_one(t, v) t[1] = v end\n"
    "local function set_first(t, v) t.first = v end\n"
    /* As a global variable of a function whose globals the table has. */
    "local function set_global(t, v)\n"
    "  local _ENV = t\n"
    "  local function assign(value)\n"
    "    local function store() first = value end\n"
    "    store()\n"
    "  end\n"
    "  assign(v)\n"
    "end\n"
    "local function set_by_move(t, k, v) move({v}, 1, 1, k, t) end\n"
    /* A closure that keeps one value, and a coroutine whose frames keep one each, or also share it with a closure. */
    "local function cell(v)\n"
    "  local x\n"
    "  local function closure(value, is_stored) if is_stored then x = value else return x end end\n"
    "  work()\n"
    "  x = fresh(v)\n"
    "  return closure\n"
    "end\n"
    "local function frame(n, cells)\n"
    "  local x\n"
    "  if cells then\n"
    "    cells[n] = function(v, is_stored) if is_stored then x = v else return x end end\n"
    "  end\n"
    "  if n > 1 then frame(n - 1, cells)\n"
    "  else\n"
    "    if cells then cells[0] = function() return x end end\n"
    "    pause()\n"
    "  end\n"
    "  return x\n"
    "end\n"
    "local function identity(...) return ... end\n"
    "local function rebuild(...) return {made = work(), fresh(...)} end\n"
    "local function join(a, b) return a .. b end\n"
    "local function join_all(...) return concat({...}) end\n"
    /* The stack grows. */
    "local function deep(n)\n"
    "  local a, b, c, d, e, f, g, h, i, j\n"
    "  if n > 0 then return 1 + deep(n - 1) end\n"
    "  return 0\n"
    "end\n"
    "return set, set_one, set_first, set_global, set_by_move, cell, frame, identity, rebuild, join, join_all, deep\n";

static int pause_frames(lua_State *state)
{
    return lua_yield(state, 0);
}

/* Returns its arguments, long strings as copies. */
static int fresh(lua_State *state)
{
    for (int i = 1; i <= lua_gettop(state); i++) {
        if (lua_type(state, i) != LUA_TSTRING)
            continue;
        lua_pushlstring(state, lua_tostring(state, i), lua_rawlen(state, i));
        lua_replace(state, i);
    }
    return lua_gettop(state);
}

void open_code(lua_State *state, lua_CFunction work)
{
    int bottom = lua_gettop(state);
    luaL_loadbuffer(state, CHUNK, sizeof CHUNK - 1, "=adapter");
    lua_pushcfunction(state, pause_frames);
    lua_pushcfunction(state, work);
    lua_pushcfunction(state, fresh);
    luaL_requiref(state, LUA_TABLIBNAME, luaopen_table, 0);
    lua_call(state, 4, LUA_MULTRET);
    for (int code = lua_gettop(state) - bottom - 1; code >= 0; code--)
        lua_rawseti(state, LUA_REGISTRYINDEX, FIRST + code);
}

void push_code(lua_State *state, enum code code)
{
    lua_rawgeti(state, LUA_REGISTRYINDEX, FIRST + (int)code);
}
