/* What an adapter in C has to have. front.c has the rest: it reads scripts, refuses what is to be refused, and answers.
**
** A root is a slot: 16 of each of the eight sessions, and then the 16 of the board. The functions below get roots, and
** fields that are there, of roots that name an object. So they refuse nothing. The numbers of `config` aren't handed on:
** a heap has room for 4,096 pages of 256 words, or grows.
*/
#ifndef FRONT_H
#define FRONT_H

#include <stdbool.h>
#include <stdint.h>

enum { SESSIONS = 8, SLOTS = 16, ROOTS = (SESSIONS + 1) * SLOTS };

/* How far the collector is, which is asked for before each command. */
struct progress {
    /* How many cycles it has finished since heap_open. */
    uint64_t cycles;
    /* Whether it works in steps, so that commands can come within a cycle. Only then are these counted. */
    bool is_stepwise;
    /* Whether a cycle is under way now. */
    bool is_under_way;
    /* Whether it moves objects. */
    bool is_moving;
};

/* Of front.c: whether a word is among those of the command line, what the first number among them is, and the first
** path, which is a word with a slash, or NULL.
*/
bool is_asked(const char *word);
unsigned long number_asked(unsigned long otherwise);
const char *path_asked(void);

/* Of the adapter. */
void heap_open(void);
void heap_close(void);
/* Forgets what it counted of objects and commands, as a script begins. All roots were cleared before. */
void heap_begin(void);
/* Says no if there is no memory. */
bool heap_make(int root, uint64_t references, uint64_t numbers);
/* Says no if the root names nothing. */
bool heap_shape(int root, uint64_t *references, uint64_t *numbers);
void heap_get(int to, int from, uint64_t reference);
/* If `from` names nothing, null is stored. */
void heap_put(int to, uint64_t reference, int from);
uint64_t heap_read(int root, uint64_t number);
void heap_write(int root, uint64_t number, uint64_t value);
void heap_copy(int to, int from);
void heap_clear(int root);
bool heap_same(int one, int other);
/* Begins a cycle, if none is under way. */
void heap_start(void);
/* Brings the cycle that is under way to its end. If there is none, a whole one runs. */
void heap_quantum(void);
/* Comes after each command: a collector that works in steps does a piece of its work here. */
void heap_step(void);
struct progress heap_progress(void);

#endif
