/* Roots of the adapter for Ruby: of eight kinds, in turn. */
#include "front.h"
#include "ruby_objects.h"

enum { KINDS = 8, OF_A_KIND = ROOTS / KINDS };
enum { ELEMENT, ADDRESS, GLOBAL, FIBER_LOCAL, MACHINE_STACK, LOCAL, CLASS_VARIABLE, INSTANCE_VARIABLE };

static VALUE elements, addresses[OF_A_KIND], stack, locals, owner;
static ID names[OF_A_KIND];
static char globals[OF_A_KIND][8];

/* The stack of a suspended fiber has these roots. It gets a place and a value, or a place alone, and answers with what
** lies there.
*/
static VALUE keep_on_stack(RB_BLOCK_CALL_FUNC_ARGLIST(first, unused))
{
    volatile VALUE kept[OF_A_KIND];
    VALUE asked = first;
    (void)unused;
    for (int place = 0; place < OF_A_KIND; place++)
        kept[place] = Qnil;
    for (;;) {
        long place = FIX2LONG(rb_ary_entry(asked, 0));
        if (RARRAY_LEN(asked) == 2)
            kept[place] = rb_ary_entry(asked, 1);
        VALUE answer = kept[place];
        asked = rb_fiber_yield(1, &answer);
    }
    return Qnil;
}

void open_roots(void)
{
    rb_gc_register_address(&elements);
    elements = rb_ary_new_capa(OF_A_KIND);
    rb_gc_register_address(&stack);
    stack = rb_fiber_new(keep_on_stack, Qnil);
    locals = rb_const_get(rb_cObject, rb_intern("ROOTS"));
    rb_gc_register_mark_object(locals);
    owner = rb_define_module("Roots");
    for (int place = 0; place < OF_A_KIND; place++) {
        addresses[place] = Qnil;
        rb_gc_register_address(&addresses[place]);
        snprintf(globals[place], sizeof globals[place], "$r%d", place);
        names[place] = rb_intern_str(rb_sprintf("@@r%d", place));
    }
}

static ID instance_name(int place)
{
    return rb_intern_str(rb_sprintf("@r%d", place));
}

static VALUE load_class_variable(int place)
{
    return RTEST(rb_cvar_defined(owner, names[place])) ? rb_cvar_get(owner, names[place]) : Qnil;
}

VALUE root_load(int root)
{
    int place = root / KINDS;
    VALUE asked;
    switch (root % KINDS) {
    case ELEMENT:
        return rb_ary_entry(elements, place);
    case ADDRESS:
        return addresses[place];
    case GLOBAL:
        return rb_gv_get(globals[place]);
    case FIBER_LOCAL:
        return rb_thread_local_aref(rb_thread_current(), names[place]);
    case MACHINE_STACK:
        asked = rb_ary_new_from_args(1, INT2FIX(place));
        return rb_fiber_resume(stack, 1, &asked);
    case LOCAL:
        return rb_funcall(locals, rb_intern("[]"), 1, INT2FIX(place));
    case CLASS_VARIABLE:
        return load_class_variable(place);
    default:
        return rb_ivar_get(owner, instance_name(place));
    }
}

void root_store(int root, VALUE value)
{
    int place = root / KINDS;
    VALUE asked;
    switch (root % KINDS) {
    case ELEMENT:
        rb_ary_store(elements, place, value);
        break;
    case ADDRESS:
        addresses[place] = value;
        break;
    case GLOBAL:
        rb_gv_set(globals[place], value);
        break;
    case FIBER_LOCAL:
        rb_thread_local_aset(rb_thread_current(), names[place], value);
        break;
    case MACHINE_STACK:
        asked = rb_ary_new_from_args(2, INT2FIX(place), value);
        rb_fiber_resume(stack, 1, &asked);
        break;
    case LOCAL:
        rb_funcall(locals, rb_intern("[]="), 2, INT2FIX(place), value);
        break;
    case CLASS_VARIABLE:
        rb_cvar_set(owner, names[place], value);
        break;
    default:
        rb_ivar_set(owner, instance_name(place), value);
    }
}
