/* How objects of the adapter for Lua keep their fields: in many ways, each with marking and barriers of its own. */
#ifndef LUA_FIELDS_H
#define LUA_FIELDS_H

#include <lua.h>
#include <stdbool.h>
#include <stdint.h>

enum kind {
    ARRAY_PART, HASH_PART, USER_VALUES, UPVALUES, COROUTINE, EPHEMERON, CELLS, FRAMES, WEAK_VALUES, METATABLE,
    FINALISED, PROXY, CONSTRUCTED, KINDS
};

/* Of more fields than that, an object keeps them in the array part of a table. */
enum { FEW_FIELDS = 200 };

/* A userdata. Its user values keep its fields or what has them, unless its metatable does. Objects of a kind differ by
** their turns, in how they are made and in how fields are stored.
*/
struct object {
    uint64_t references, numbers;
    enum kind kind;
    unsigned turn;
};

/* What is known of a kind. The object is at the index `owner`, and fields are counted from 1. */
struct keeping {
    /* How many user values an object of so many fields has, and what gives them, or NULL. */
    int (*user_values)(const struct object *object, int fields);
    void (*make)(lua_State *state, const struct object *object, int owner, int fields);
    /* Pushes what a field has. */
    void (*load)(lua_State *state, const struct object *object, int owner, int field);
    /* Gives a field what is on top. May leave anything on the stack. */
    void (*store)(lua_State *state, const struct object *object, int owner, int field);
};

extern const struct keeping ARRAY_KEEPING, HASH_KEEPING, METATABLE_KEEPING, PROXY_KEEPING, CONSTRUCTED_KEEPING;
extern const struct keeping EPHEMERON_KEEPING, WEAK_KEEPING, FINALISED_KEEPING;
extern const struct keeping UPVALUE_KEEPING, COROUTINE_KEEPING, CELL_KEEPING, FRAME_KEEPING;

int fields_of(const struct object *object);
int one_user_value(const struct object *object, int fields);
/* Gives a table the value on top by the key below it, and pops both. Turns take different ways. */
void assign(lua_State *state, int table, unsigned turn);
/* A C function that returns its upvalue of a number, or stores what it is given there. */
int reach_upvalue(lua_State *state);

/* Pushes a new object. */
void push_object(lua_State *state, struct object object);
/* Pushes what a field of the object on top has. */
void load(lua_State *state, int field);
/* Gives a field of the object below the top what is on top. */
void store(lua_State *state, int field);
/* Has to come before the state is closed. */
void close_weak(void);
/* Whether what was pushed is an object that lives. */
bool is_alive(const struct object *object);

#endif
