/* Answers scripts by libgc, the collector of Boehm, Demers and Weiser.
**
**     cc -O2 -o libgc libgc.c libgc_objects.c front.c -lgc    (Debian: libgc-dev)
**     libgc [stopped | protected | manual] [inner] [EVERY]
**
** After each EVERY commands (1) the collector works:
**   stopped    by a whole collection, some of which are given up
**   protected  by a small step; it learns by page faults what was written
**   manual     by a small step; the adapter itself says what it wrote
** With `inner` references lead to anywhere within objects, and finalizers run in the order of Java.
**
** Objects are of many kinds, in turn by their birth: see libgc_objects.c. Slots are in static data with a part that
** isn't looked at, in an uncollectable object, in memory that is added as a root, and in memory that the adapter itself
** pushes as collections ask for roots. While a collection is asked for, some are on the stack. After each command there
** is litter: it takes what the collector freed, of sizes and kinds that were used, and is filled with poison. Stale
** words of the stack are cleared, else they keep what they point at. Static data has false pointers into free memory,
** so that pages are black-listed.
**
** Cycles are those that libgc counts. Whether one is under way is what the last step said; an allocation may end it or
** begin one within a command. Which phase it is in can't be known. No command falls within a collection of `stopped`.
*/
#include "front.h"
#include "libgc_objects.h"

#include <gc.h>
#include <gc/gc_mark.h>
#include <stdlib.h>
#include <string.h>

enum {
    SIZES = 16, FULL_FREQUENCY = 3, STALE = 512, EXCLUDED = 64, PLACES = 4, FALSE_POINTERS = 8, PAGE = 4096,
    GIVEN_UP = 4, APART = 24,
    UNMAPPED = 8, ON_STACK = 8, MANY_OBJECTS = 4096
};

/* Static slots, and a part among them that isn't looked at. */
static struct { uint64_t low[ROOTS / 2], excluded[EXCLUDED], high[ROOTS / 2]; } even_roots;
static uint64_t *uncollectable_roots, *added_roots, *pushed_roots;
static uint64_t false_pointers[FALSE_POINTERS];
static GC_push_other_roots_proc push_before;
static bool is_stepwise, is_under_way;
static uint64_t births, commands, every, collections;
/* The births and shapes of the last objects, for litter. */
static struct { uint64_t birth, references, numbers; } sizes[SIZES];

static int GC_CALLBACK always(void)
{
    return 1;
}

/* Lets a collection be given up after some steps. */
static int GC_CALLBACK soon(void)
{
    static int asked;
    return ++asked % GIVEN_UP == 0;
}

/* Slots that the collector doesn't find itself, in the ways that a program may push them. */
static void GC_CALLBACK push_roots(void)
{
    uint64_t *third = pushed_roots + APART * (ROOTS / 3), *rest = third + APART * (ROOTS / 3);
    if (push_before != NULL)
        push_before();
    GC_push_all(pushed_roots, third);
    GC_push_all_eager(third, rest);
    /* Pages that aren't the collector's count as written. */
    GC_push_conditional(rest, pushed_roots + APART * ROOTS, 0);
}

static void add_roots(void)
{
    GC_add_roots(added_roots, added_roots + ROOTS / 2);
    GC_add_roots(added_roots, added_roots + ROOTS);
    GC_add_roots(added_roots, added_roots + ROOTS / 2);
}

static void make_roots(void)
{
    uncollectable_roots = GC_MALLOC_UNCOLLECTABLE(ROOTS * sizeof(uint64_t));
    added_roots = calloc(ROOTS, sizeof(uint64_t));
    pushed_roots = calloc(APART * ROOTS, sizeof(uint64_t));
    add_roots();
    GC_exclude_static_roots(even_roots.excluded + EXCLUDED / 2, even_roots.excluded + EXCLUDED);
    GC_exclude_static_roots(even_roots.excluded, even_roots.excluded + EXCLUDED / 2);
    push_before = GC_get_push_other_roots();
    GC_set_push_other_roots(push_roots);
}

void heap_open(void)
{
    bool is_inner = is_asked("inner");
    is_stepwise = is_asked("protected") || is_asked("manual");
    every = number_asked(1);
    GC_set_all_interior_pointers(is_inner);
    GC_set_manual_vdb_allowed(is_asked("manual"));
    GC_INIT();
    GC_set_java_finalization(is_inner);
    objects_open((struct abilities){is_inner, is_stepwise});
    if (is_stepwise) {
        /* With a limit of time a cycle may stop before its end, and here it always does, as often as it may. */
        GC_enable_incremental();
        GC_set_rate(1);
        GC_set_time_limit(1);
        GC_set_stop_func(always);
        GC_set_full_freq(FULL_FREQUENCY);
    }
    make_roots();
}

void heap_close(void)
{
}

/* Lets static data point to pages that are free. */
static void point_falsely(void)
{
    char *free_pages = GC_MALLOC_ATOMIC_IGNORE_OFF_PAGE(2 * FALSE_POINTERS * PAGE);
    for (int i = 0; free_pages != NULL && i < FALSE_POINTERS; i++)
        false_pointers[i] = (uint64_t)(free_pages + 2 * i * PAGE + PAGE);
    GC_FREE(free_pages);
}

void heap_begin(void)
{
    births = commands = collections = 0;
    memset(sizes, 0, sizeof sizes);
    objects_begin();
    GC_remove_roots(added_roots, added_roots + ROOTS);
    add_roots();
    point_falsely();
}

static uint64_t *place_of(int root)
{
    switch (root % PLACES) {
    case 0:
        return root < ROOTS / 2 ? even_roots.low + root : even_roots.high + root - ROOTS / 2;
    case 1:
        return uncollectable_roots + root;
    case 2:
        return added_roots + root;
    default:
        return pushed_roots + APART * root;
    }
}

static struct object *at(int root)
{
    return object_led_to(*place_of(root));
}

static void lead(int root, const struct object *object)
{
    object_store_word(place_of(root), (uint64_t)root, object_word(object, (uint64_t)root / PLACES));
}

bool heap_make(int root, uint64_t references, uint64_t numbers)
{
    struct object *made = object_new(births, references, numbers);
    if (made == NULL)
        return false;
    sizes[births % SIZES].birth = births;
    sizes[births % SIZES].references = references;
    sizes[births % SIZES].numbers = numbers;
    births++;
    lead(root, made);
    return true;
}

bool heap_shape(int root, uint64_t *references, uint64_t *numbers)
{
    const struct object *object = at(root);
    if (object == NULL)
        return false;
    *references = object_references(object);
    *numbers = object_numbers(object);
    return true;
}

void heap_get(int to, int from, uint64_t reference)
{
    lead(to, object_load(at(from), reference));
}

void heap_put(int to, uint64_t reference, int from)
{
    object_store(at(to), reference, at(from));
}

uint64_t heap_read(int root, uint64_t number)
{
    return *object_number(at(root), number);
}

void heap_write(int root, uint64_t number, uint64_t value)
{
    *object_number(at(root), number) = value;
}

void heap_copy(int to, int from)
{
    lead(to, at(from));
}

void heap_clear(int root)
{
    lead(root, NULL);
}

bool heap_same(int one, int other)
{
    return at(one) == at(other);
}

static void clear_stale_words(void)
{
    volatile uint64_t stack[STALE];
    for (int i = 0; i < STALE; i++)
        stack[i] = 0;
    (void)stack;
}

static void litter(void)
{
    uint64_t place = commands % SIZES;
    object_litter(sizes[place].birth, sizes[place].references, sizes[place].numbers);
}

void heap_start(void)
{
    clear_stale_words();
    if (!is_stepwise || is_under_way)
        return;
    GC_start_incremental_collection();
    is_under_way = true;
}

static void step(void)
{
    clear_stale_words();
    if (!is_under_way)
        heap_start();
    else
        is_under_way = GC_collect_a_little();
}

static void collect(void)
{
    if (collections++ % GIVEN_UP == 1)
        GC_try_to_collect(soon);
    else
        GC_gcollect();
}

static void * GC_CALLBACK collect_wholly(void *nothing)
{
    static int whole;
    if (is_stepwise)
        while (GC_collect_a_little())
            ;
    else if (++whole % UNMAPPED == 0)
        GC_gcollect_and_unmap();
    else
        GC_gcollect();
    return nothing;
}

static void * GC_CALLBACK block(void *nothing)
{
    return GC_call_with_gc_active(collect_wholly, nothing);
}

/* Collects while some slots are on the stack alone, below a part of it that isn't looked at. */
void heap_quantum(void)
{
    volatile uint64_t words[ON_STACK];
    clear_stale_words();
    heap_start();
    for (int root = 0; root < ON_STACK; root++) {
        words[root] = *place_of(root);
        object_store_word(place_of(root), 0, 0);
    }
    GC_do_blocking(block, NULL);
    for (int root = 0; root < ON_STACK; root++)
        object_store_word(place_of(root), 0, words[root]);
    is_under_way = false;
}

/* After how many commands the collector works. Whole collections are rarer where there may be many objects. */
static uint64_t interval(void)
{
    return is_stepwise ? every : every * (1 + births / MANY_OBJECTS);
}

void heap_step(void)
{
    litter();
    if (++commands % interval() != 0)
        return;
    if (is_stepwise)
        step();
    else
        collect();
}

struct progress heap_progress(void)
{
    return (struct progress){GC_get_gc_no(), is_stepwise, is_under_way, false};
}
