/* Answers scripts by the collector of Racket CS, which is that of its Chez Scheme, through its interface for C.
**
**     cc -O2 -I/usr/include/racket -o racket racket.c front.c -lracketcs -lz -llz4 -lm -ldl -lpthread -lncurses \
**         -ltinfo                                                        (Debian: racket liblz4-dev zlib1g-dev)
**     racket /PATH/TO/racket_holders.ss [MODE] [EVERY]
**
** After each EVERY commands (1) the collector works, and fills of what it freed:
**   young         what is young becomes older by a generation
**   generations   what Chez chooses by itself, which is an older generation each fourth time
**   staying       what is young stays young
**   climbing      each generation but the last becomes older, in turn from one collection to the next
**   marking       as `generations`, and what is older than the youngest is marked in its place
**   counted       as `generations`, by the collector that counts objects and keeps what leads to each; now and then it
**                 is asked for both
**   checked       as `generations`, and the heap is checked after each 200th collection
**   automatic     when 64 KiB were asked for, as a program has it
** `* quantum` is a collection of all.
**
** Objects keep their fields in 37 ways, by their birth, roots are of eight kinds, and numbers are objects of thirteen:
** racket_holders.ss has them. It calls setters of the interface for C, which are here. `collections` counts cycles. A
** collection isn't divided into steps.
*/
#include <stddef.h>
#include <chezscheme.h>

#include "front.h"

#include <stdio.h>
#include <stdlib.h>
#include <string.h>

enum { OF_A_KIND = ROOTS / 8 };
#define BOOT "/usr/lib/racket/"

static const char *const MODES[] = {
    "young", "generations", "staying", "climbing", "marking", "counted", "checked", "automatic"};
enum { MODE_COUNT = sizeof MODES / sizeof *MODES };

static uint64_t commands, every;
static const char *mode;
/* Roots outside of Scheme's heap. What they name is locked, so that it doesn't move. */
static ptr addresses[OF_A_KIND];

static void fail(const char *what)
{
    fprintf(stderr, "adapter: %s\n", what);
    exit(3);
}

static ptr procedure(const char *name)
{
    return Stop_level_value(Sstring_to_symbol(name));
}

static ptr call1(const char *name, ptr first)
{
    return Scall1(procedure(name), first);
}

static ptr call2(const char *name, ptr first, ptr second)
{
    return Scall2(procedure(name), first, second);
}

static ptr call3(const char *name, ptr first, ptr second, ptr third)
{
    return Scall3(procedure(name), first, second, third);
}

static ptr number(uint64_t value)
{
    return Sunsigned64(value);
}

static ptr address_ref(int place)
{
    return addresses[place];
}

static void address_set(int place, ptr value)
{
    Slock_object(value);
    Sunlock_object(addresses[place]);
    addresses[place] = value;
}

static void set_symbol(ptr symbol, ptr value)
{
    Sset_top_level_value(symbol, value);
}

static void add_setters(void)
{
    for (int place = 0; place < OF_A_KIND; place++)
        addresses[place] = Sfalse;
    Sforeign_symbol("vector_set", (void *)Svector_set);
    Sforeign_symbol("set_car", (void *)Sset_car);
    Sforeign_symbol("set_cdr", (void *)Sset_cdr);
    Sforeign_symbol("set_box", (void *)Sset_box);
    Sforeign_symbol("set_symbol", (void *)set_symbol);
    Sforeign_symbol("address_ref", (void *)address_ref);
    Sforeign_symbol("address_set", (void *)address_set);
}

static const char *mode_asked(void)
{
    int place = 0;
    while (place < MODE_COUNT && !is_asked(MODES[place]))
        place++;
    return MODES[place < MODE_COUNT ? place : 0];
}

void heap_open(void)
{
    const char *path = path_asked();
    if (path == NULL)
        fail("no path of racket_holders.ss");
    every = number_asked(1);
    mode = mode_asked();
    Sscheme_init(NULL);
    Sregister_boot_file(BOOT "petite.boot");
    Sregister_boot_file(BOOT "scheme.boot");
    Sbuild_heap(NULL, add_setters);
    call1("load", Sstring(path));
    call1("heap-open", Sstring_to_symbol(mode));
}

void heap_close(void)
{
    Sscheme_deinit();
}

void heap_begin(void)
{
    commands = 0;
    Scall0(procedure("heap-begin"));
}

bool heap_make(int root, uint64_t references, uint64_t numbers)
{
    call3("heap-make", Sfixnum(root), number(references), number(numbers));
    return true;
}

bool heap_shape(int root, uint64_t *references, uint64_t *numbers)
{
    ptr found = call1("heap-references", Sfixnum(root));
    if (found == Sfalse)
        return false;
    *references = (uint64_t)Sfixnum_value(found);
    *numbers = (uint64_t)Sfixnum_value(call1("heap-numbers", Sfixnum(root)));
    return true;
}

void heap_get(int to, int from, uint64_t reference)
{
    call3("heap-get", Sfixnum(to), Sfixnum(from), number(reference));
}

void heap_put(int to, uint64_t reference, int from)
{
    call3("heap-put", Sfixnum(to), number(reference), Sfixnum(from));
}

uint64_t heap_read(int root, uint64_t place)
{
    return (uint64_t)Sunsigned64_value(call2("heap-read", Sfixnum(root), number(place)));
}

void heap_write(int root, uint64_t place, uint64_t value)
{
    call3("heap-write", Sfixnum(root), number(place), number(value));
}

void heap_copy(int to, int from)
{
    call2("heap-copy", Sfixnum(to), Sfixnum(from));
}

void heap_clear(int root)
{
    call1("heap-clear", Sfixnum(root));
}

bool heap_same(int one, int other)
{
    return call2("heap-same", Sfixnum(one), Sfixnum(other)) == Strue;
}

void heap_start(void)
{
    call1("heap-step", Sstring_to_symbol("young"));
}

void heap_quantum(void)
{
    Scall0(procedure("heap-collect"));
}

void heap_step(void)
{
    if (++commands % every == 0)
        call1("heap-step", Sstring_to_symbol(mode));
}

struct progress heap_progress(void)
{
    return (struct progress){(uint64_t)Sfixnum_value(Scall0(procedure("collections"))), false, false, true};
}
