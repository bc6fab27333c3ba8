/* Answers scripts by the collector of Ruby 3.1, through its C interface.
**
**     cc -O2 $(pkg-config --cflags ruby-3.1) -o ruby ruby.c ruby_holders.c ruby_numbers.c ruby_roots.c front.c \
**         $(pkg-config --libs ruby-3.1)                                                  (Debian: ruby3.1-dev)
**     ruby /PATH/TO/ruby_holders.rb [incremental | generational | compacting | moving | stressed] [EVERY]
**
** After each EVERY commands (1) the collector works, and after each command some objects are made and dropped at once,
** which fill what was freed, and let it take a step:
**   incremental   a full cycle begins if none is under way
**   generational  by a collection of what is young; `* quantum` is one of all
**   compacting    by a full collection, and then all objects move that may
**   moving        as incremental, and objects move while it sweeps
**   stressed      a collection comes with each allocation of the next command
**
** Objects keep their fields in 24 ways, by their birth, and roots are of eight kinds. Numbers are objects of ten kinds,
** and references lie behind them. `GC.count` counts cycles, also those of young objects. Whether a cycle is under way
** is what `GC.latest_gc_info(:state)` says.
*/
#include "front.h"
#include "ruby_objects.h"

#include <stdio.h>
#include <stdlib.h>
#include <string.h>

enum { LITTER = 100 };

static enum { INCREMENTAL, GENERATIONAL, COMPACTING, MOVING, STRESSED } mode;
static uint64_t births, commands, every;
static VALUE state_name, idle, litter_size;

static void fail(const char *what)
{
    fprintf(stderr, "adapter: %s\n", what);
    exit(3);
}

/* What a command needs, which runs where an exception of Ruby ends the program with a message. */
struct operands {
    int to, from;
    uint64_t field, value, references;
    VALUE answer;
};

static void guard(VALUE (*deed)(VALUE), struct operands *operands)
{
    int state = 0;
    rb_protect(deed, (VALUE)operands, &state);
    if (state == 0)
        return;
    VALUE error = rb_errinfo();
    VALUE text = rb_protect(rb_inspect, error, &state);
    fail(state == 0 ? StringValueCStr(text) : "an exception");
}

/* Calls a method of GC by the words of a script in Ruby. */
static void collector(const char *words)
{
    rb_eval_string(words);
}

static VALUE open_all(VALUE unused)
{
    (void)unused;
    open_roots();
    open_holders();
    open_numbers();
    state_name = ID2SYM(rb_intern("state"));
    idle = ID2SYM(rb_intern("none"));
    litter_size = INT2FIX(LITTER);
    if (mode == MOVING)
        collector("GC.auto_compact = true");
    return Qnil;
}

void heap_open(void)
{
    static char name[] = "adapter", plain[] = "--disable=all";
    int count = 3;
    char *words[] = {name, plain, (char *)path_asked(), NULL}, **all = words;
    if (words[2] == NULL)
        fail("no path of ruby_holders.rb");
    every = number_asked(1);
    mode = is_asked("generational") ? GENERATIONAL : is_asked("compacting") ? COMPACTING : is_asked("moving") ? MOVING
        : is_asked("stressed") ? STRESSED : INCREMENTAL;
    ruby_sysinit(&count, &all);
    ruby_init();
    if (ruby_exec_node(ruby_options(count, all)) != 0)
        fail("ruby_holders.rb failed");
    guard(open_all, NULL);
}

void heap_close(void)
{
    ruby_cleanup(0);
}

void heap_begin(void)
{
    births = commands = 0;
}

static VALUE make(VALUE given)
{
    struct operands *operands = (struct operands *)given;
    root_store(operands->to, object_new(births++, operands->references, operands->value));
    return Qnil;
}

bool heap_make(int root, uint64_t references, uint64_t numbers)
{
    guard(make, &(struct operands){.to = root, .references = references, .value = numbers});
    return true;
}

static VALUE look(VALUE given)
{
    struct operands *operands = (struct operands *)given;
    operands->answer = root_load(operands->to);
    if (!NIL_P(operands->answer)) {
        operands->references = object_of(operands->answer)->references;
        operands->value = object_of(operands->answer)->numbers;
    }
    return Qnil;
}

bool heap_shape(int root, uint64_t *references, uint64_t *numbers)
{
    struct operands operands = {.to = root};
    guard(look, &operands);
    *references = operands.references;
    *numbers = operands.value;
    return !NIL_P(operands.answer);
}

/* Numbers are fields from 0 on, and references lie behind them. */
static long place_of(VALUE object, uint64_t reference)
{
    return (long)(object_of(object)->numbers + reference);
}

static VALUE get(VALUE given)
{
    struct operands *operands = (struct operands *)given;
    VALUE object = root_load(operands->from);
    root_store(operands->to, object_load(object, place_of(object, operands->field)));
    return Qnil;
}

void heap_get(int to, int from, uint64_t reference)
{
    guard(get, &(struct operands){.to = to, .from = from, .field = reference});
}

static VALUE put(VALUE given)
{
    struct operands *operands = (struct operands *)given;
    VALUE object = root_load(operands->to);
    object_store(object, place_of(object, operands->field), root_load(operands->from));
    return Qnil;
}

void heap_put(int to, uint64_t reference, int from)
{
    guard(put, &(struct operands){.to = to, .from = from, .field = reference});
}

static VALUE read_number(VALUE given)
{
    struct operands *operands = (struct operands *)given;
    operands->value = number_of(object_load(root_load(operands->from), (long)operands->field));
    return Qnil;
}

uint64_t heap_read(int root, uint64_t number)
{
    struct operands operands = {.from = root, .field = number};
    guard(read_number, &operands);
    return operands.value;
}

static VALUE write_number(VALUE given)
{
    struct operands *operands = (struct operands *)given;
    object_store(root_load(operands->to), (long)operands->field, number_new(operands->value));
    return Qnil;
}

void heap_write(int root, uint64_t number, uint64_t value)
{
    guard(write_number, &(struct operands){.to = root, .field = number, .value = value});
}

static VALUE copy(VALUE given)
{
    struct operands *operands = (struct operands *)given;
    root_store(operands->to, root_load(operands->from));
    return Qnil;
}

void heap_copy(int to, int from)
{
    guard(copy, &(struct operands){.to = to, .from = from});
}

static VALUE clear(VALUE given)
{
    root_store(((struct operands *)given)->to, Qnil);
    return Qnil;
}

void heap_clear(int root)
{
    guard(clear, &(struct operands){.to = root});
}

static VALUE compare(VALUE given)
{
    struct operands *operands = (struct operands *)given;
    operands->value = root_load(operands->to) == root_load(operands->from);
    return Qnil;
}

bool heap_same(int one, int other)
{
    struct operands operands = {.to = one, .from = other};
    guard(compare, &operands);
    return operands.value != 0;
}

static bool is_under_way(void)
{
    return rb_gc_latest_gc_info(state_name) != idle;
}

static VALUE start(VALUE unused)
{
    (void)unused;
    if (!is_under_way())
        collector("GC.start(immediate_mark: false, immediate_sweep: false)");
    return Qnil;
}

void heap_start(void)
{
    guard(start, NULL);
}

/* Ends what is under way, for which there is no call of its own. */
static VALUE finish(VALUE unused)
{
    (void)unused;
    if (!is_under_way())
        collector("GC.start");
    rb_gc_disable();
    rb_gc_enable();
    return Qnil;
}

void heap_quantum(void)
{
    guard(finish, NULL);
}

static VALUE step(VALUE unused)
{
    (void)unused;
    bool is_due = ++commands % every == 0;
    if (mode == STRESSED)
        collector("GC.stress = false");
    else if (is_due && mode == GENERATIONAL)
        collector("GC.start(full_mark: false, immediate_sweep: false)");
    else if (is_due && mode == COMPACTING)
        collector("GC.compact");
    else if (is_due)
        start(Qnil);
    rb_funcall(Qnil, rb_intern("litter"), 1, litter_size);
    if (is_due && mode == STRESSED)
        collector("GC.stress = true");
    return Qnil;
}

void heap_step(void)
{
    guard(step, NULL);
}

struct progress heap_progress(void)
{
    return (struct progress){rb_gc_count(), true, is_under_way(), mode == COMPACTING || mode == MOVING};
}
