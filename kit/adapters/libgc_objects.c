/* The kinds of objects of the adapter for libgc.
**
** Most objects have their references behind their numbers. Those of the others are in a body, in which they may lie
** far apart; or each is in a box of its own. A body is found by a strong word of its object, or by a hidden one: then a
** finalizer or a toggle reference keeps it for as long as its object lives. Objects without references have their
** numbers in themselves, or in an object that a finalizer frees, or that is spoilt as its owner is reclaimed.
**
** What is weak stands beside what is strong. An object of the kind LINKED is reached through a link that the collector
** clears as the object dies, so a link that is cleared too soon shows.
*/
#define ENABLE_DISCLAIM
#include "libgc_objects.h"

#include <gc.h>
#include <gc/gc_disclaim.h>
#include <gc/gc_gcj.h>
#include <gc/gc_mark.h>
#include <gc/gc_typed.h>
#include <stddef.h>
#include <stdlib.h>
#include <string.h>

enum kind {
    TYPED, CONSERVATIVE, BODY, MANY, PROCEDURE, BOXED, DESCRIBED, VIRTUAL, NEAR, HIDDEN, TYPED_NEAR, TOGGLED,
    REALLOCATED, LINKED, KINDS,
    /* Of objects without references. */
    ATOMIC, ATOMIC_NEAR, OUTSIDE, DISCLAIMED, FINALISED, LEAF_KINDS = FINALISED - ATOMIC + 1
};

enum {
    MOST_FIELDS = 216000, MOST_LITTER = 4096, WORD = sizeof(uint64_t), MOST_IN_BITMAP = 60, MOST_IN_CHAIN = 64,
    LINKS = 256, WIDE = 544, MOST_WIDE = 24, MOST_SPREAD = 20000, NEARBY = 256, WHOLE = 4, MOST_KEPT = 100, LARGE = 256,
    MOST_OF_A_PAGE = 509
};
static const uint64_t POISON = 0xDBDBDBDBDBDBDBDB;

/* The first word of a free object is a link of the collector, and the others are 0. So an object that lives has an odd
** first word, or there is the descriptor of a virtual one. Behind the header is a leading word, if the kind has one. */
struct object {
    uint64_t type;
    uint64_t references : 24, numbers : 24, kind : 8, turn : 8;
    uint64_t fields[];
};
enum { HEADER = sizeof(struct object) / WORD, ALIVE = 1, ASKED = 3 };

/* What a finalizer or a toggle reference keeps, in the script that made it. Its owner is hidden, behind a link that is
** cleared as the owner dies. */
struct body {
    uint64_t owner, self, script, references[];
};

struct descriptor {
    uint64_t unused, marking;
};

/* Bodies of typed elements: how many words each has, and in which of them its reference is. */
static const struct { uint64_t words, reference; } ELEMENTS[] = {{1, 0}, {WIDE, WIDE - 1}, {2, 1}, {3, 0}};
enum { FORMS = sizeof ELEMENTS / sizeof *ELEMENTS };

/* Where references lead into objects, unless that is anywhere. */
static const uint64_t PLACES[] = {0, 8, 24, 72};

static struct abilities able;
static GC_descr element_descriptors[FORMS];
static GC_word marked_by_procedure;
static unsigned procedure_kind, described_kind, disclaimed_kind;
/* Of virtual objects: a descriptor for each small shape, and one for all others. */
static struct descriptor *descriptors, others;
static void *chains[MOST_IN_CHAIN + 1];
static uint64_t links[LINKS];
/* How many bodies and leaves finalizers and toggle references keep. A collection looks at each. */
static uint64_t kept;
/* The number of the script that is answered. */
static uint64_t script;

static uint64_t hidden(const void *pointer)
{
    return ~(uint64_t)pointer;
}

static void *revealed(uint64_t word)
{
    return (void *)~word;
}

static bool has_body(enum kind kind)
{
    return kind == BODY || kind == HIDDEN || kind == TOGGLED;
}

static bool is_kept(enum kind kind)
{
    return kind == HIDDEN || kind == TOGGLED || kind == OUTSIDE || kind == FINALISED;
}

static uint64_t leading_words(enum kind kind)
{
    return has_body(kind) || kind == DESCRIBED || kind == LINKED;
}

static bool is_outside(enum kind kind)
{
    return kind == OUTSIDE || kind == DISCLAIMED || kind == FINALISED;
}

/* How many words an object has of its own. */
static uint64_t words_of(enum kind kind, uint64_t references, uint64_t numbers)
{
    if (is_outside(kind))
        return HEADER + 1 + (kind == DISCLAIMED && numbers > LARGE ? numbers : 0);
    return HEADER + leading_words(kind) + numbers + (has_body(kind) ? 0 : references);
}

static uint64_t first_reference(enum kind kind, uint64_t numbers)
{
    return HEADER + leading_words(kind) + numbers;
}

static void wrote(const void *at, const void *pointer)
{
    GC_END_STUBBORN_CHANGE(at);
    GC_reachable_here(pointer);
}

void object_store_word(uint64_t *at, uint64_t place, uint64_t word)
{
    if (place % 2 != 0) {
        GC_PTR_STORE_AND_DIRTY(at, (void *)word);
        return;
    }
    *at = word;
    wrote(at, (void *)word);
}

/* Marks the references of an object, also of one that is on a free list and so has none. */
static struct GC_ms_entry *mark_references(GC_word *at, struct GC_ms_entry *top, struct GC_ms_entry *limit, GC_word env)
{
    const struct object *object = (const struct object *)at;
    void **reference = (void **)at + first_reference(object->kind, object->numbers);
    (void)env;
    for (void **end = reference + object->references; reference < end; reference++)
        top = GC_MARK_AND_PUSH(*reference, top, limit, reference);
    return top;
}

/* Spoils the numbers of an object that is reclaimed, unless it is free already. Each second object isn't reclaimed
** until the collector asks once more. */
static int GC_CALLBACK disclaim(void *at)
{
    struct object *object = at;
    if (object->type == 0 || object->type % 2 == 0)
        return 0;
    if (object->turn % 2 != 0 && object->type != ASKED) {
        object->type = ASKED;
        return 1;
    }
    memset((void *)object->fields[0], 0xDB, object->numbers * WORD);
    object->type = 0;
    return 0;
}

/* What a script before this one kept isn't counted any more. */
static void kept_less(void)
{
    if (kept > 0)
        kept--;
}

static bool is_needed(const struct body *body)
{
    return body->owner != 0 && body->script == script;
}

static GC_ToggleRefStatus GC_CALLBACK toggled(void *at)
{
    const struct body *body = at;
    if (!is_needed(body)) {
        kept_less();
        return GC_TOGGLE_REF_DROP;
    }
    return body->self != 0 ? GC_TOGGLE_REF_WEAK : GC_TOGGLE_REF_STRONG;
}

static void GC_CALLBACK free_numbers(void *at, void *data)
{
    struct object *object = at;
    (void)data;
    memset((void *)object->fields[0], 0xDB, object->numbers * WORD);
    GC_FREE((void *)object->fields[0]);
    object->fields[0] = 0;
    kept_less();
}

/* Resurrects a body for as long as its owner lives. */
static void GC_CALLBACK resurrect(void *at, void *data)
{
    const struct body *body = at;
    (void)data;
    if (!is_needed(body)) {
        kept_less();
        return;
    }
    if (body->self != 0)
        GC_REGISTER_FINALIZER_IGNORE_SELF(at, resurrect, NULL, NULL, NULL);
    else
        GC_REGISTER_FINALIZER(at, resurrect, NULL, NULL, NULL);
}

/* A descriptor of so many words of which the first ones have no references. */
static GC_descr descriptor_of(uint64_t first, uint64_t words)
{
    static GC_word bits[(HEADER + 1 + MOST_FIELDS) / GC_WORDSZ + 1];
    memset(bits, 0, (words / GC_WORDSZ + 1) * sizeof *bits);
    for (uint64_t field = first; field < words; field++)
        GC_set_bit(bits, field);
    return GC_make_descriptor(bits, words);
}

static void describe_elements(void)
{
    /* An element of one reference, as a bitmap: a length would make the array one of conservative words. */
    element_descriptors[0] = (GC_word)1 << (GC_WORDSZ - 1) | GC_DS_BITMAP;
    for (int form = 1; form < FORMS; form++)
        element_descriptors[form] = descriptor_of(ELEMENTS[form].reference, ELEMENTS[form].reference + 1);
}

void objects_open(struct abilities abilities)
{
    able = abilities;
    for (size_t place = 0; place < sizeof PLACES / sizeof *PLACES; place++)
        GC_REGISTER_DISPLACEMENT(PLACES[place]);
    marked_by_procedure = GC_MAKE_PROC(GC_new_proc(mark_references), 0);
    procedure_kind = GC_new_kind(GC_new_free_list(), marked_by_procedure, 0, 1);
    described_kind = GC_new_kind(GC_new_free_list(), offsetof(struct object, fields) | GC_DS_PER_OBJECT, 0, 1);
    disclaimed_kind = GC_new_kind(GC_new_free_list(), GC_DS_LENGTH, 1, 1);
    GC_register_disclaim_proc((int)disclaimed_kind, disclaim, 1);
    GC_init_gcj_malloc(GC_GCJ_RESERVED_MARK_PROC_INDEX, mark_references);
    GC_set_toggleref_func(toggled);
    descriptors = calloc((MOST_IN_BITMAP + 1) * (MOST_IN_BITMAP + 1), sizeof *descriptors);
    describe_elements();
}

void objects_begin(void)
{
    script++;
    kept = 0;
    memset(chains, 0, sizeof chains);
    for (int link = 0; link < LINKS; link++) {
        if (able.has_resurrection)
            GC_unregister_long_link((void **)(links + link));
        else
            GC_unregister_disappearing_link((void **)(links + link));
        links[link] = 0;
    }
}

static enum kind kind_of(uint64_t birth, uint64_t references)
{
    enum kind kind = references > 0 ? birth % KINDS : ATOMIC + birth % LEAF_KINDS;
    if (is_kept(kind) && kept >= MOST_KEPT)
        return has_body(kind) ? BODY : DISCLAIMED;
    return kind == HIDDEN && !able.has_resurrection ? TOGGLED : kind;
}

/* A bitmap of an object whose references are its last words. A larger one is marked by a procedure. */
static GC_word marking_of(uint64_t first, uint64_t words)
{
    if (words > MOST_IN_BITMAP)
        return marked_by_procedure;
    GC_word bits = 0;
    for (uint64_t word = first; word < words; word++)
        bits |= (GC_word)1 << (GC_WORDSZ - 1 - word);
    return bits | GC_DS_BITMAP;
}

/* What a virtual object has as its first word. Half of them are marked by a procedure. */
static struct descriptor *virtual_descriptor(uint64_t first, uint64_t words)
{
    struct descriptor *it = words > MOST_IN_BITMAP ? &others : descriptors + first * (MOST_IN_BITMAP + 1) + words;
    bool has_procedure = words % 2 == 0 || it == &others;
    it->marking = has_procedure ? GC_MAKE_PROC(GC_GCJ_RESERVED_MARK_PROC_INDEX, 0) : marking_of(first, words);
    return it;
}

static void *from_chain(uint64_t words)
{
    if (words > MOST_IN_CHAIN)
        return GC_MALLOC(words * WORD);
    if (chains[words] == NULL)
        chains[words] = GC_malloc_many(words * WORD);
    void *first = chains[words];
    if (first == NULL)
        return NULL;
    chains[words] = GC_NEXT(first);
    GC_NEXT(first) = NULL;
    return first;
}

/* Memory that was half as large before. If it lost what it had there, it counts as refused. */
static void *reallocated(uint64_t words)
{
    uint64_t half = (words + 1) / 2, kept = 0;
    uint64_t *part = GC_MALLOC(half * WORD);
    for (uint64_t word = 0; part != NULL && word < half; word++)
        part[word] = ~word;
    part = part != NULL ? GC_REALLOC(part, words * WORD) : NULL;
    for (uint64_t word = 0; part != NULL && word < half; word++)
        kept += part[word] == ~word;
    return kept == half ? part : NULL;
}

/* The memory of an object itself, of so many words; the first ones have no references. */
static void *memory_for(enum kind kind, uint64_t first, uint64_t words)
{
    size_t size = words * WORD;
    switch (kind) {
    case TYPED:
        return GC_MALLOC_EXPLICITLY_TYPED(size, descriptor_of(first, words));
    case TYPED_NEAR:
        return GC_malloc_explicitly_typed_ignore_off_page(size, descriptor_of(first, words));
    case MANY:
        return from_chain(words);
    case PROCEDURE:
        return GC_generic_malloc(size, (int)procedure_kind);
    case DESCRIBED:
        return GC_generic_malloc(size, (int)described_kind);
    case VIRTUAL:
        return size > NEARBY ? GC_GCJ_MALLOC_IGNORE_OFF_PAGE(size, virtual_descriptor(first, words))
                             : GC_GCJ_MALLOC(size, virtual_descriptor(first, words));
    case NEAR:
        return GC_MALLOC_IGNORE_OFF_PAGE(size);
    case REALLOCATED:
        return reallocated(words);
    case ATOMIC:
        return GC_MALLOC_ATOMIC(size);
    case ATOMIC_NEAR:
        return GC_MALLOC_ATOMIC_IGNORE_OFF_PAGE(size);
    case DISCLAIMED:
        return GC_generic_malloc(size, (int)disclaimed_kind);
    default:
        return GC_MALLOC(size);
    }
}

/* By how many words the references of a body are apart depends on the turn, and on how many there are. */
static int form_of(uint64_t turn, uint64_t references)
{
    int form = (int)(turn % FORMS);
    if (references > MOST_SPREAD)
        return 0;
    return ELEMENTS[form].words == WIDE && references > MOST_WIDE ? form + 1 : form;
}

/* How many elements a body has. Of some lengths libgc describes it by a tree, which is cleared as nothing but a
** finalizer leads to the body, and stays so if that resurrects it. */
static uint64_t elements(uint64_t references)
{
    return able.has_resurrection ? (references + WHOLE - 1) / WHOLE * WHOLE : references;
}

static void *body_for(enum kind kind, uint64_t turn, uint64_t references)
{
    int form = form_of(turn, references);
    if (kind != BODY)
        return GC_MALLOC(sizeof(struct body) + references * WORD);
    return GC_CALLOC_EXPLICITLY_TYPED(elements(references), ELEMENTS[form].words * WORD, element_descriptors[form]);
}

/* Lets an object keep its hidden body. */
static void keep_hidden(struct object *object, struct body *body)
{
    bool has_self = object->turn % 2 != 0;
    kept++;
    body->script = script;
    body->owner = hidden(object);
    GC_REGISTER_LONG_LINK((void **)&body->owner, object);
    body->self = has_self ? (uint64_t)body : 0;
    wrote(body, body);
    if (object->kind == HIDDEN)
        resurrect(body, NULL);
    else
        GC_toggleref_add(body, 1);
}

/* A body that a weak toggle reference has beside it is led to as well. */
static bool is_led_to(const struct object *object)
{
    return object->kind == BODY || (object->kind == TOGGLED && object->turn % 2 != 0);
}

static bool give_body(struct object *object)
{
    void *body = body_for(object->kind, object->turn, object->references);
    if (body == NULL)
        return false;
    object->fields[0] = is_led_to(object) ? (uint64_t)body : hidden(body);
    wrote(object->fields, body);
    if (object->kind != BODY)
        keep_hidden(object, body);
    return true;
}

static void *body_of(const struct object *object)
{
    return is_led_to(object) ? (void *)object->fields[0] : revealed(object->fields[0]);
}

static int free_link(void)
{
    int link = 0;
    while (link < LINKS && links[link] != 0)
        link++;
    return link;
}

/* Gives an object a link beside what leads to it, if there is one left. */
static void give_link(struct object *object)
{
    int link = free_link();
    if (link == LINKS) {
        object->fields[0] = LINKS;
        return;
    }
    object->fields[0] = (uint64_t)link;
    links[link] = hidden(object);
    if (able.has_resurrection)
        GC_REGISTER_LONG_LINK((void **)(links + link), object);
    else
        GC_GENERAL_REGISTER_DISAPPEARING_LINK((void **)(links + link), object);
}

static void move_link(struct object *object)
{
    int link = free_link();
    uint64_t *from = links + object->fields[0];
    if (link == LINKS)
        return;
    links[link] = *from;
    if (able.has_resurrection)
        GC_move_long_link((void **)from, (void **)(links + link));
    else
        GC_move_disappearing_link((void **)from, (void **)(links + link));
    *from = 0;
    object->fields[0] = (uint64_t)link;
}

static bool give_numbers(struct object *object)
{
    size_t size = (object->numbers + 1) * WORD;
    void *numbers = object->kind == DISCLAIMED ? GC_MALLOC_ATOMIC(size) : GC_MALLOC_ATOMIC_UNCOLLECTABLE(size);
    if (numbers == NULL)
        return false;
    memset(numbers, 0, size);
    object->fields[0] = (uint64_t)numbers;
    wrote(object->fields, numbers);
    if (object->kind == OUTSIDE)
        GC_REGISTER_FINALIZER_NO_ORDER(object, free_numbers, NULL, NULL, NULL);
    else if (object->kind == FINALISED)
        GC_REGISTER_FINALIZER_UNREACHABLE(object, free_numbers, NULL, NULL, NULL);
    kept += is_kept(object->kind);
    return true;
}

static bool give_rest(struct object *object)
{
    enum kind kind = object->kind;
    uint64_t first = first_reference(kind, object->numbers);
    if (kind == DESCRIBED)
        object->fields[0] = marking_of(first, first + object->references);
    else if (kind == LINKED)
        give_link(object);
    else if (is_outside(kind))
        return give_numbers(object);
    return !has_body(kind) || give_body(object);
}

struct object *object_new(uint64_t birth, uint64_t references, uint64_t numbers)
{
    enum kind kind = kind_of(birth, references);
    uint64_t words = words_of(kind, references, numbers), first = first_reference(kind, numbers);
    struct object *made = memory_for(kind, first, words);
    if (made == NULL)
        return NULL;
    memset(made->fields, 0, (words - HEADER) * WORD);
    if (kind != VIRTUAL)
        made->type = ALIVE;
    made->references = references;
    made->numbers = numbers;
    made->kind = kind;
    made->turn = birth / KINDS;
    return give_rest(made) ? made : NULL;
}

static void poison(void *memory, uint64_t first, uint64_t words)
{
    for (uint64_t word = first; memory != NULL && word < words; word++)
        ((uint64_t *)memory)[word] = POISON;
}

void object_litter(uint64_t birth, uint64_t references, uint64_t numbers)
{
    enum kind kind = kind_of(birth, references);
    uint64_t words = words_of(kind, references, numbers);
    uint64_t body_words = references * (kind == BODY ? ELEMENTS[form_of(birth / KINDS, references)].words : 1);
    if (words + body_words > MOST_LITTER)
        return;
    void *memory = memory_for(kind, first_reference(kind, numbers), words);
    poison(memory, HEADER + (kind == DESCRIBED), words);
    if (has_body(kind))
        poison(body_for(kind, birth / KINDS, references), 0, body_words);
    else if (birth % 4 == 3)
        GC_FREE(memory);
}

uint64_t object_references(const struct object *object)
{
    return object->references;
}

uint64_t object_numbers(const struct object *object)
{
    return object->numbers;
}

/* Whether libgc looks only for words that lead to the beginning of an object. */
static bool is_near(enum kind kind)
{
    return kind == NEAR || kind == TYPED_NEAR || kind == ATOMIC_NEAR || kind == VIRTUAL;
}

/* By how many bytes a word leads into an object of a place of this number. */
static uint64_t displacement(const struct object *object, uint64_t place)
{
    uint64_t size = words_of(object->kind, object->references, object->numbers) * WORD;
    if (able.has_all_interior_pointers) {
        return (place + 1) * MOST_OF_A_PAGE * WORD % (is_near(object->kind) && size > NEARBY ? NEARBY : size);
    }
    uint64_t wanted = PLACES[place % (sizeof PLACES / sizeof *PLACES)];
    return wanted < size ? wanted : 0;
}

uint64_t object_word(const struct object *object, uint64_t place)
{
    return object != NULL ? (uint64_t)object + displacement(object, place) : 0;
}

/* The object itself, by its link if it has one. */
static struct object *by_link(struct object *object)
{
    if (object->fields[0] >= LINKS)
        return object;
    struct object *linked = links[object->fields[0]] != 0 ? revealed(links[object->fields[0]]) : NULL;
    if (linked == object)
        move_link(object);
    return linked;
}

struct object *object_led_to(uint64_t word)
{
    return word != 0 ? GC_base((void *)word) : NULL;
}

/* Where a reference is, but for those that have boxes. */
static uint64_t *reference_in(struct object *object, uint64_t reference)
{
    if (!has_body(object->kind))
        return object->fields + first_reference(object->kind, object->numbers) - HEADER + reference;
    if (object->kind != BODY)
        return ((struct body *)body_of(object))->references + reference;
    int form = form_of(object->turn, object->references);
    return (uint64_t *)body_of(object) + reference * ELEMENTS[form].words + ELEMENTS[form].reference;
}

struct object *object_load(struct object *object, uint64_t reference)
{
    uint64_t *at = reference_in(object, reference);
    if (object->kind == BOXED && *at != 0)
        at = (uint64_t *)*at;
    struct object *loaded = object_led_to(*at);
    return loaded != NULL && loaded->kind == LINKED ? by_link(loaded) : loaded;
}

/* A fresh box, of one granule or a few, that is led to by a reference. */
static uint64_t *boxed(uint64_t *at, uint64_t reference)
{
    uint64_t *box = GC_MALLOC((size_t)2 * WORD << reference % 3);
    object_store_word(at, reference, (uint64_t)box);
    return box;
}

void object_store(struct object *object, uint64_t reference, const struct object *value)
{
    uint64_t *at = reference_in(object, reference), word = object_word(value, reference);
    if (object->kind == BOXED && (*at == 0 || reference % 2 == 0))
        at = boxed(at, reference);
    else if (object->kind == BOXED)
        at = (uint64_t *)*at;
    object_store_word(at, reference, word);
}

uint64_t *object_number(struct object *object, uint64_t number)
{
    if (is_outside(object->kind))
        return (uint64_t *)object->fields[0] + number;
    return object->fields + leading_words(object->kind) + number;
}
