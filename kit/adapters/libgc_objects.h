/* The objects of the adapter for libgc: each is of one of the kinds that libgc marks by code of its own, in turn by its
** birth. What is loaded and stored doesn't depend on the kind.
*/
#ifndef LIBGC_OBJECTS_H
#define LIBGC_OBJECTS_H

#include <stdbool.h>
#include <stdint.h>

struct object;

/* What the kinds may do in a mode. */
struct abilities {
    /* References lead to anywhere within an object, and else to a few places of its beginning. */
    bool has_all_interior_pointers;
    /* Objects outlive a collection by finalizers that resurrect them. */
    bool has_resurrection;
};

void objects_open(struct abilities);
/* Forgets what is kept of the objects of one script. */
void objects_begin(void);
/* NULL if there is no memory. */
struct object *object_new(uint64_t birth, uint64_t references, uint64_t numbers);
/* Allocates what an object of this birth would, and fills it with poison. */
void object_litter(uint64_t birth, uint64_t references, uint64_t numbers);
uint64_t object_references(const struct object *);
uint64_t object_numbers(const struct object *);
/* The object that a word leads to, and the word that leads to an object from a place of this number. */
struct object *object_led_to(uint64_t word);
uint64_t object_word(const struct object *, uint64_t place);
/* Stores a word in memory of the collector, in turn by the place. */
void object_store_word(uint64_t *at, uint64_t place, uint64_t word);
struct object *object_load(struct object *, uint64_t reference);
void object_store(struct object *, uint64_t reference, const struct object *);
uint64_t *object_number(struct object *, uint64_t number);

#endif
