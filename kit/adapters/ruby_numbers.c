/* Numbers of the adapter for Ruby: objects of ten kinds, which the number chooses. None is without an object. */
#include "ruby_objects.h"

#include <inttypes.h>
#include <math.h>
#include <stdio.h>
#include <stdlib.h>
#include <string.h>

enum { EMBEDDED, EXTENDED, SHORT, LONG, SHARED, SYMBOL, RATIONAL, COMPLEX, FLOATS, MATCH, KINDS };
/* How many digits have room in a string beside its header, and how many letters lie before those that are shared. */
enum { SHORT_DIGITS = 20, LONG_DIGITS = 60, BEFORE = 30 };
/* Floats so large are objects. */
static const double GREAT = 0x1p600, LEAST = 0x1p33;

static VALUE pattern;

void open_numbers(void)
{
    rb_gc_register_address(&pattern);
    pattern = rb_reg_new_str(rb_str_new_cstr("[0-9]+"), 0);
}

/* A number of so many words of 64 bits, the lowest of which is the value. */
static VALUE big(uint64_t value, size_t words)
{
    uint64_t all[5] = {value, 1, 2, 3, 4};
    return rb_integer_unpack(all, words, sizeof *all, 0, INTEGER_PACK_LITTLE_ENDIAN);
}

static uint64_t low_word(VALUE number)
{
    uint64_t all[5] = {0};
    rb_integer_pack(number, all, 5, sizeof *all, 0, INTEGER_PACK_LITTLE_ENDIAN);
    return all[0];
}

static VALUE digits(uint64_t value, int count)
{
    char text[LONG_DIGITS + 1];
    return rb_str_new(text, snprintf(text, sizeof text, "%0*" PRIu64, count, value));
}

static uint64_t digits_of(VALUE text)
{
    char copy[LONG_DIGITS + 1] = "";
    size_t length = (size_t)RSTRING_LEN(text);
    memcpy(copy, RSTRING_PTR(text), length < sizeof copy ? length : sizeof copy - 1);
    return strtoull(copy, NULL, 10);
}

static VALUE symbol(uint64_t value)
{
    return rb_to_symbol(rb_sprintf("n%" PRIu64, value));
}

static VALUE matched(uint64_t value)
{
    VALUE text = rb_sprintf("some text, and then %" PRIu64, value);
    rb_reg_match(pattern, text);
    return rb_backref_get();
}

VALUE number_new(uint64_t value)
{
    switch (value % KINDS) {
    case EMBEDDED:
        return big(value, 2);
    case EXTENDED:
        return big(value, 5);
    case SHORT:
        return digits(value, SHORT_DIGITS);
    case LONG:
        return digits(value, LONG_DIGITS);
    case SHARED:
        return rb_str_substr(digits(value, LONG_DIGITS), BEFORE, LONG_DIGITS - BEFORE);
    case SYMBOL:
        return symbol(value);
    case RATIONAL:
        return rb_rational_raw(big(value, 2), big(3, 2));
    case COMPLEX:
        return rb_complex_raw(big(value, 5), big(value, 2));
    case FLOATS:
        return rb_complex_raw(DBL2NUM((LEAST + (double)(value >> 32)) * GREAT),
                              DBL2NUM((LEAST + (double)(uint32_t)value) * GREAT));
    default:
        return matched(value);
    }
}

static uint64_t float_part(VALUE number)
{
    return (uint64_t)(RFLOAT_VALUE(number) / GREAT - LEAST);
}

static uint64_t complex_of(VALUE number)
{
    VALUE real = rb_complex_real(number), imaginary = rb_complex_imag(number);
    if (RB_FLOAT_TYPE_P(real))
        return float_part(real) << 32 | float_part(imaginary);
    return low_word(real) == low_word(imaginary) ? low_word(real) : 0;
}

uint64_t number_of(VALUE value)
{
    if (NIL_P(value))
        return 0;
    switch (rb_type(value)) {
    case T_BIGNUM:
        return low_word(value);
    case T_STRING:
        return digits_of(value);
    case T_SYMBOL:
        return strtoull(RSTRING_PTR(rb_sym2str(value)) + 1, NULL, 10);
    case T_RATIONAL:
        return low_word(rb_rational_num(value));
    case T_COMPLEX:
        return complex_of(value);
    case T_MATCH:
        return digits_of(rb_reg_nth_match(0, value));
    default:
        return 0;
    }
}
