/* How the adapter for Ruby keeps roots, the fields of objects, and numbers. */
#ifndef RUBY_OBJECTS_H
#define RUBY_OBJECTS_H

#include <ruby.h>
#include <stdint.h>

/* Of more fields than that, an object keeps them in an array, a hash or a block of its own. */
enum { FEW_FIELDS = 48 };

/* An object keeps its fields in a holder, of a kind that its birth chooses. Numbers are fields from 0 on, and
** references lie behind them.
*/
struct kind;
struct object {
    uint64_t references, numbers;
    const struct kind *kind;
    VALUE holder;
};

/* Makes what roots, holders and numbers need, after ruby_holders.rb was run. */
void open_roots(void);
void open_holders(void);
void open_numbers(void);

VALUE object_new(uint64_t birth, uint64_t references, uint64_t numbers);
struct object *object_of(VALUE value);
VALUE object_load(VALUE object, long field);
void object_store(VALUE object, long field, VALUE value);

VALUE root_load(int root);
void root_store(int root, VALUE value);

/* A number as an object of a kind that the number chooses. */
VALUE number_new(uint64_t value);
uint64_t number_of(VALUE value);

#endif
