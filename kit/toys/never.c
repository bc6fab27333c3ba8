/* The smallest adapter: a heap that never collects, over front.c, which reads scripts and answers.
**
**     cc -O2 -I kit/adapters -o /tmp/never kit/toys/never.c kit/adapters/front.c
**
** Copy it, and let each function do its command by your runtime instead.
*/
#include "front.h"

#include <stdlib.h>

struct object {
    uint64_t references, numbers;
    struct object **refers;
    uint64_t *values;
};

static struct object *roots[ROOTS];

void heap_open(void) {}
void heap_close(void) {}
void heap_begin(void) {}

bool heap_make(int root, uint64_t references, uint64_t numbers)
{
    struct object *made = malloc(sizeof *made);
    *made = (struct object){references, numbers, calloc(references + 1, sizeof(void *)), calloc(numbers + 1, 8)};
    roots[root] = made;
    return true;
}

bool heap_shape(int root, uint64_t *references, uint64_t *numbers)
{
    if (roots[root] == NULL) return false;
    *references = roots[root]->references;
    *numbers = roots[root]->numbers;
    return true;
}

void heap_get(int to, int from, uint64_t reference) { roots[to] = roots[from]->refers[reference]; }
void heap_put(int to, uint64_t reference, int from) { roots[to]->refers[reference] = roots[from]; }
uint64_t heap_read(int root, uint64_t number) { return roots[root]->values[number]; }
void heap_write(int root, uint64_t number, uint64_t value) { roots[root]->values[number] = value; }
void heap_copy(int to, int from) { roots[to] = roots[from]; }
void heap_clear(int root) { roots[root] = NULL; }
bool heap_same(int one, int other) { return roots[one] == roots[other]; }
void heap_start(void) {}
void heap_quantum(void) {}
void heap_step(void) {}
struct progress heap_progress(void) { return (struct progress){0}; }
