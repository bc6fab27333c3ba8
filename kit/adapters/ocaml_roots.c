/* Slots and objects of the adapter for OCaml that belong to C: each kind of root that the runtime has for C, and blocks
** that are made and written by its interface for C.
*/
#include <caml/alloc.h>
#include <caml/callback.h>
#include <caml/memory.h>
#include <caml/mlvalues.h>

enum { ROOTS = 144 };

/* Generational roots are numbers while they are null. Half of them are registered only while they aren't. */
static value generational[ROOTS], global[ROOTS], *local;

static int stays_registered(value root)
{
    return Long_val(root) / 4 % 2 == 0;
}

value adapter_generational(value root, value null)
{
    value item = generational[Long_val(root)];
    return Is_block(item) ? item : null;
}

value adapter_set_generational(value root, value item, value null)
{
    value *at = generational + Long_val(root), new = item != null ? item : Val_unit;
    int was_null = Is_long(*at);
    if (!was_null || stays_registered(root)) {
        caml_modify_generational_global_root(at, new);
    } else if (Is_block(new)) {
        *at = new;
        caml_register_generational_global_root(at);
    }
    if (!was_null && Is_long(new) && !stays_registered(root))
        caml_remove_generational_global_root(at);
    return Val_unit;
}

value adapter_global(value root)
{
    return global[Long_val(root)];
}

value adapter_set_global(value root, value item)
{
    global[Long_val(root)] = item;
    return Val_unit;
}

value adapter_local(value root)
{
    return local[Long_val(root)];
}

value adapter_set_local(value root, value item)
{
    local[Long_val(root)] = item;
    return Val_unit;
}

/* Calls a function while local roots are on the stack of C. */
value adapter_serve(value serve, value null)
{
    CAMLparam2(serve, null);
    CAMLlocalN(slots, ROOTS);
    for (int root = 0; root < ROOTS; root++) {
        global[root] = slots[root] = null;
        caml_register_global_root(global + root);
        generational[root] = Val_unit;
        caml_register_generational_global_root(generational + root);
    }
    local = slots;
    caml_callback(serve, Val_unit);
    for (int root = 0; root < ROOTS; root++) {
        caml_remove_global_root(global + root);
        caml_remove_generational_global_root(generational + root);
    }
    CAMLreturn(Val_unit);
}

/* A block of so many fields, which is young if it is small. */
value adapter_block(value size, value item)
{
    CAMLparam1(item);
    mlsize_t fields = Long_val(size);
    CAMLlocal1(block);
    if (fields <= Max_young_wosize) {
        block = caml_alloc(fields, 0);
        for (mlsize_t field = 0; field < fields; field++)
            Store_field(block, field, item);
    } else {
        block = caml_alloc_shr(fields, 0);
        for (mlsize_t field = 0; field < fields; field++)
            caml_initialize(&Field(block, field), item);
        block = caml_check_urgent_gc(block);
    }
    CAMLreturn(block);
}

value adapter_store(value block, value field, value item)
{
    caml_modify(&Field(block, Long_val(field)), item);
    return Val_unit;
}
