/* How objects of the adapter for Ruby keep their fields: in many ways, each with marking and barriers of its own. Those
** that C can't reach are classes in ruby_holders.rb.
*/
#include "ruby_objects.h"

#include <stdio.h>
#include <stdlib.h>

struct kind {
    VALUE (*make)(const struct kind *kind, long fields);
    VALUE (*load)(VALUE holder, long field);
    void (*store)(VALUE holder, long field, VALUE value);
    /* Of a holder in Ruby, and how many of its kind are passed over for one that is made, since it has a stack. */
    const char *class_name;
    int rarity;
};

/* Fields outside of Ruby's objects. Those that a barrier keeps are the first, and what may move comes behind them. */
struct block {
    long fields;
    VALUE values[];
};

static ID fetch_id, store_id, instance_names[FEW_FIELDS], constant_names[FEW_FIELDS], class_names[FEW_FIELDS];
static VALUE structures, holder_class;

static VALUE array_make(const struct kind *kind, long fields)
{
    VALUE made = rb_ary_new_capa(fields);
    (void)kind;
    for (long field = 0; field < fields; field++)
        rb_ary_push(made, Qnil);
    return made;
}

static VALUE array_load(VALUE holder, long field)
{
    return rb_ary_entry(holder, field);
}

/* By the number of the field, the interface stores, or takes off what lies at an end and puts it back. */
static void array_store(VALUE holder, long field, VALUE value)
{
    long last = RARRAY_LEN(holder) - 1;
    if (field == last && field % 2 == 0) {
        rb_ary_pop(holder);
        rb_ary_push(holder, value);
    } else if (field == 0 && last % 2 == 0) {
        rb_ary_shift(holder);
        rb_ary_unshift(holder, value);
    } else {
        rb_ary_store(holder, field, value);
    }
}

/* Its elements are written without a barrier, as the interface allows for arrays whose address was asked for. */
static void open_array_store(VALUE holder, long field, VALUE value)
{
    RARRAY_PTR(holder)[field] = value;
}

static VALUE hash_make(const struct kind *kind, long fields)
{
    (void)kind;
    (void)fields;
    return rb_hash_new();
}

static VALUE hash_load(VALUE holder, long field)
{
    return rb_hash_lookup(holder, LONG2FIX(field));
}

static void hash_store(VALUE holder, long field, VALUE value)
{
    rb_hash_aset(holder, LONG2FIX(field), value);
}

static VALUE instance_make(const struct kind *kind, long fields)
{
    (void)kind;
    (void)fields;
    return rb_obj_alloc(holder_class);
}

static VALUE text_make(const struct kind *kind, long fields)
{
    (void)kind;
    (void)fields;
    return rb_str_new_cstr("a text with instance variables");
}

static VALUE instance_load(VALUE holder, long field)
{
    return rb_ivar_get(holder, instance_names[field]);
}

static void instance_store(VALUE holder, long field, VALUE value)
{
    rb_ivar_set(holder, instance_names[field], value);
}

/* The structure with so many members. */
static VALUE structure(long fields)
{
    VALUE made = rb_ary_entry(structures, fields);
    if (!NIL_P(made))
        return made;
    VALUE names = rb_ary_new();
    for (long field = 0; field < fields; field++)
        rb_ary_push(names, ID2SYM(rb_intern_str(rb_sprintf("m%ld", field))));
    made = rb_apply(rb_cStruct, rb_intern("new"), names);
    rb_ary_store(structures, fields, made);
    return made;
}

static VALUE structure_make(const struct kind *kind, long fields)
{
    (void)kind;
    return rb_obj_alloc(structure(fields > 0 ? fields : 1));
}

static VALUE structure_load(VALUE holder, long field)
{
    return rb_struct_aref(holder, LONG2FIX(field));
}

static void structure_store(VALUE holder, long field, VALUE value)
{
    rb_struct_aset(holder, LONG2FIX(field), value);
}

static VALUE module_make(const struct kind *kind, long fields)
{
    (void)kind;
    (void)fields;
    return rb_module_new();
}

/* By the number of the field: a constant, a class variable, or an instance variable of the module. */
static VALUE module_load(VALUE holder, long field)
{
    if (field % 3 == 2)
        return rb_ivar_get(holder, instance_names[field]);
    if (field % 3 == 1)
        return RTEST(rb_cvar_defined(holder, class_names[field])) ? rb_cvar_get(holder, class_names[field]) : Qnil;
    return rb_const_defined_at(holder, constant_names[field]) ? rb_const_get_at(holder, constant_names[field]) : Qnil;
}

static void module_store(VALUE holder, long field, VALUE value)
{
    if (field % 3 == 2)
        rb_ivar_set(holder, instance_names[field], value);
    else if (field % 3 == 1)
        rb_cvar_set(holder, class_names[field], value);
    else {
        if (rb_const_defined_at(holder, constant_names[field]))
            rb_const_remove(holder, constant_names[field]);
        rb_const_set(holder, constant_names[field], value);
    }
}

static void block_mark_pinned(void *data)
{
    struct block *block = data;
    for (long field = 0; field < block->fields; field++)
        rb_gc_mark(block->values[field]);
}

static void block_mark_range(void *data)
{
    struct block *block = data;
    rb_gc_mark_locations(block->values, block->values + block->fields);
}

static void block_mark_movable(void *data)
{
    struct block *block = data;
    for (long field = 0; field < block->fields; field++)
        rb_gc_mark_movable(block->values[field]);
}

static void block_update(void *data)
{
    struct block *block = data;
    for (long field = 0; field < block->fields; field++)
        block->values[field] = rb_gc_location(block->values[field]);
}

static size_t block_size(const void *data)
{
    return sizeof(struct block) + (size_t)((const struct block *)data)->fields * sizeof(VALUE);
}

/* With a barrier for each store, and moved. Without, and pinned. Without, and moved. The last is freed late. */
static const rb_data_type_t PROTECTED = {
    .wrap_struct_name = "protected", .flags = RUBY_TYPED_FREE_IMMEDIATELY | RUBY_TYPED_WB_PROTECTED,
    .function = {
        .dmark = block_mark_movable, .dfree = RUBY_DEFAULT_FREE, .dsize = block_size, .dcompact = block_update}};
static const rb_data_type_t PINNING = {
    .wrap_struct_name = "pinning", .flags = RUBY_TYPED_FREE_IMMEDIATELY,
    .function = {.dmark = block_mark_pinned, .dfree = RUBY_DEFAULT_FREE, .dsize = block_size}};
static const rb_data_type_t RANGE = {
    .wrap_struct_name = "range", .flags = RUBY_TYPED_FREE_IMMEDIATELY,
    .function = {.dmark = block_mark_range, .dfree = RUBY_DEFAULT_FREE, .dsize = block_size}};
static const rb_data_type_t MOVING = {
    .wrap_struct_name = "moving",
    .function = {
        .dmark = block_mark_movable, .dfree = RUBY_DEFAULT_FREE, .dsize = block_size, .dcompact = block_update}};

static VALUE block_make(const rb_data_type_t *type, long fields)
{
    VALUE made = rb_data_typed_object_zalloc(0, sizeof(struct block) + (size_t)fields * sizeof(VALUE), type);
    struct block *block = RTYPEDDATA_DATA(made);
    for (long field = 0; field < fields; field++)
        block->values[field] = Qnil;
    block->fields = fields;
    return made;
}

static VALUE protected_make(const struct kind *kind, long fields)
{
    (void)kind;
    return block_make(&PROTECTED, fields);
}

static VALUE pinning_make(const struct kind *kind, long fields)
{
    (void)kind;
    return block_make(&PINNING, fields);
}

static VALUE range_make(const struct kind *kind, long fields)
{
    (void)kind;
    return block_make(&RANGE, fields);
}

static VALUE moving_make(const struct kind *kind, long fields)
{
    (void)kind;
    return block_make(&MOVING, fields);
}

static VALUE block_load(VALUE holder, long field)
{
    return ((struct block *)RTYPEDDATA_DATA(holder))->values[field];
}

static void protected_store(VALUE holder, long field, VALUE value)
{
    struct block *block = RTYPEDDATA_DATA(holder);
    RB_OBJ_WRITE(holder, &block->values[field], value);
}

static void block_store(VALUE holder, long field, VALUE value)
{
    ((struct block *)RTYPEDDATA_DATA(holder))->values[field] = value;
}

static VALUE language_make(const struct kind *kind, long fields)
{
    return rb_funcall(rb_const_get(rb_cObject, rb_intern(kind->class_name)), rb_intern("new"), 1, LONG2FIX(fields));
}

static VALUE language_load(VALUE holder, long field)
{
    return rb_funcall(holder, fetch_id, 1, LONG2FIX(field));
}

static void language_store(VALUE holder, long field, VALUE value)
{
    rb_funcall(holder, store_id, 2, LONG2FIX(field), value);
}

#define LANGUAGE(name, rarity) {language_make, language_load, language_store, name, rarity}

/* The first four are also those of objects with many fields. */
static const struct kind KINDS[] = {
    {array_make, array_load, array_store, NULL, 0},
    {hash_make, hash_load, hash_store, NULL, 0},
    {protected_make, block_load, protected_store, NULL, 0},
    {moving_make, block_load, block_store, NULL, 0},
    {pinning_make, block_load, block_store, NULL, 0},
    {range_make, block_load, block_store, NULL, 0},
    {instance_make, instance_load, instance_store, NULL, 0},
    {text_make, instance_load, instance_store, NULL, 0},
    {structure_make, structure_load, structure_store, NULL, 0},
    {module_make, module_load, module_store, NULL, 0},
    {array_make, array_load, open_array_store, NULL, 0},
    LANGUAGE("Closures", 0), LANGUAGE("Scopes", 0), LANGUAGE("Attributes", 0), LANGUAGE("Members", 0),
    LANGUAGE("Boxes", 0), LANGUAGE("Keys", 0), LANGUAGE("Identities", 0), LANGUAGE("WeakEntries", 0),
    LANGUAGE("Numbered", 0), LANGUAGE("Lists", 0), LANGUAGE("Tables", 0),
    LANGUAGE("Coroutines", 8), LANGUAGE("Threads", 16),
};
enum { ALL_KINDS = sizeof KINDS / sizeof *KINDS, LARGE_KINDS = 4 };

static void object_mark(void *data)
{
    rb_gc_mark_movable(((struct object *)data)->holder);
}

static void object_update(void *data)
{
    struct object *object = data;
    object->holder = rb_gc_location(object->holder);
}

static size_t object_size(const void *data)
{
    (void)data;
    return sizeof(struct object);
}

static const rb_data_type_t OBJECT = {
    .wrap_struct_name = "object", .flags = RUBY_TYPED_FREE_IMMEDIATELY | RUBY_TYPED_WB_PROTECTED,
    .function = {.dmark = object_mark, .dfree = RUBY_DEFAULT_FREE, .dsize = object_size, .dcompact = object_update}};

static const struct kind *kind_of(uint64_t birth, uint64_t fields)
{
    if (fields > FEW_FIELDS)
        return &KINDS[birth % LARGE_KINDS];
    const struct kind *kind = &KINDS[birth % ALL_KINDS];
    return kind->rarity == 0 || birth / ALL_KINDS % (uint64_t)kind->rarity == 0 ? kind : &KINDS[0];
}

VALUE object_new(uint64_t birth, uint64_t references, uint64_t numbers)
{
    struct object *object;
    VALUE made = TypedData_Make_Struct(rb_cObject, struct object, &OBJECT, object);
    *object = (struct object){references, numbers, kind_of(birth, references + numbers), Qnil};
    VALUE holder = object->kind->make(object->kind, (long)(references + numbers));
    RB_OBJ_WRITE(made, &object->holder, holder);
    return made;
}

struct object *object_of(VALUE value)
{
    struct object *object;
    TypedData_Get_Struct(value, struct object, &OBJECT, object);
    return object;
}

VALUE object_load(VALUE value, long field)
{
    struct object *object = object_of(value);
    return object->kind->load(object->holder, field);
}

void object_store(VALUE value, long field, VALUE stored)
{
    struct object *object = object_of(value);
    object->kind->store(object->holder, field, stored);
}

void open_holders(void)
{
    fetch_id = rb_intern("[]");
    store_id = rb_intern("[]=");
    rb_gc_register_address(&structures);
    structures = rb_ary_new();
    holder_class = rb_define_class("Holder", rb_cObject);
    for (long field = 0; field < FEW_FIELDS; field++) {
        instance_names[field] = rb_intern_str(rb_sprintf("@i%ld", field));
        constant_names[field] = rb_intern_str(rb_sprintf("C%ld", field));
        class_names[field] = rb_intern_str(rb_sprintf("@@c%ld", field));
    }
}
