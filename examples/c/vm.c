/* A small virtual machine with a collector of its own, judged while it runs.
** Each operation of its heap is told to a world of the library by numbers, with
** what the VM answered, and the world says whether that is right.
**
**     vm [--bug B] [--rounds N] [--words N]
**
** B plants one of the five faults of `enum bug`. If no numbers are given there
** are 10 rounds of the programs, in a heap of 8,192 words. The world keeps each
** object, so more rounds take more memory. Exits 0 if each answer was right, 1
** at the first that isn't, which is printed, and 2 if anything else stops it.
**
** To judge a runtime of your own so, give each operation of its heap a line
** `tells(..)`, and find out which of its roots are slots. Here:
**
**   *  A thread is a session. Its references are on a stack of 15 cells, locals
**      below and operands above, which are the session's slots 0 to 14. Slot 15
**      is its frame, since what the callers have is kept in the heap. Globals
**      are the slots of the board.
**   *  A cell that is popped needs no command. The world's slot names what it
**      did, and nobody looks at it before it is written again.
**   *  Integers are on a stack of their own, which the library doesn't see. In
**      objects they are numbers.
**   *  What the collector does isn't told. Only answers show it.
*/
#include "names.h"

#include <stdlib.h>
#include <string.h>

enum { THREADS = 4, CELLS = 16, FRAME = 15, BOARD = THREADS * CELLS, ROOTS = BOARD + CELLS };

/* The faults that can be planted, each of a kind that collectors have had. */
static enum bug {
    NO_BUG,
    NO_BARRIER,            /* what a field led to is not marked as it is overwritten */
    FRAME_NOT_SCANNED,     /* a root is forgotten: the frame of a thread */
    GLOBALS_NOT_FORWARDED, /* what moved is not followed in one place */
    COPIED_SHORT,          /* the last word of an object of odd size doesn't move */
    STALE_MARKS            /* an object that didn't move is still marked in the next cycle */
} bug = NO_BUG;

static void fails(const char *what) {
    fprintf(stderr, "vm: %s\n", what);
    exit(2);
}

/* Threads ---------------------------------------------------------------- */

enum { LOCALS = 4, MOST_INTEGERS = 16 };

struct thread {
    uint32_t session;
    uint32_t place; /* of the next instruction */
    uint32_t depth; /* cells that are in use */
    uint32_t count; /* integers that are in use */
    uint64_t integers[MOST_INTEGERS];
    uint64_t locals[LOCALS]; /* integers of the function that runs */
    uint32_t random;
    int has_ended;
};

static struct thread threads[THREADS];

/* The cells of all threads, and then the globals. */
static uint64_t roots[ROOTS];

static uint64_t *cells_of(const struct thread *t) {
    return roots + t->session * CELLS;
}

/* The heap --------------------------------------------------------------- */

/* An object is a word that counts its fields, then its references, then its
** numbers. A reference is the index of the object's first word; 0 is none. */
enum { MOST_WORDS = 1 << 20, MOST_FIELDS = 255 }; /* 255 of each kind */

static uint64_t space[MOST_WORDS + 1 + 2 * MOST_FIELDS];
static uint32_t words = 8192, top = 1;

static unsigned char is_marked[MOST_WORDS];
static uint32_t grey[MOST_WORDS], grey_count, forward[MOST_WORDS];
static int is_marking;
static unsigned long cycles, moves;

/* The place that a reference leads to. A broken collector leaves some that lead
** anywhere; what is found there is judged, so it only has to be in the space. */
static uint32_t place_of(uint64_t reference) {
    return reference < words ? (uint32_t)reference : 0;
}

static uint32_t references_of(uint32_t place) {
    return (uint32_t)(space[place] & MOST_FIELDS);
}

static uint32_t numbers_of(uint32_t place) {
    return (uint32_t)(space[place] >> 8 & MOST_FIELDS);
}

static uint32_t size_of(uint32_t place) {
    return 1 + references_of(place) + numbers_of(place);
}

/* The collector ---------------------------------------------------------- */

/* It marks in steps, as objects are made, what was reachable as the cycle
** started. A barrier marks what a reference led to before it is overwritten,
** and new objects are marked. Then it slides the marked ones down at once. */

static void shades(uint64_t reference) {
    uint32_t place = place_of(reference);
    if (place != 0 && !is_marked[place]) {
        is_marked[place] = 1;
        grey[grey_count++] = place;
    }
}

/* Whether a root is in use. A cell above the stack's top isn't. */
static int is_used(uint32_t root) {
    uint32_t cell = root % CELLS;
    return root >= BOARD || (cell == FRAME ? bug != FRAME_NOT_SCANNED : cell < threads[root / CELLS].depth);
}

static void starts_cycle(void) {
    is_marking = 1;
    cycles++;
    for (uint32_t root = 0; root < ROOTS; root++) {
        if (is_used(root)) {
            shades(roots[root]);
        }
    }
}

/* Marks through so many objects, if there are as many. */
static void marks(uint32_t count) {
    for (; grey_count > 0 && count > 0; count--) {
        uint32_t place = grey[--grey_count];
        for (uint32_t i = 0; i < references_of(place); i++) {
            shades(space[place + 1 + i]);
        }
    }
}

/* Decides where each marked object goes. Returns where the free words begin,
** which is no higher than before, even if a broken collector spoilt sizes. */
static uint32_t plans(void) {
    uint32_t to = 1;
    for (uint32_t place = 1; place < top; place += size_of(place)) {
        if (is_marked[place]) {
            forward[place] = to;
            to += size_of(place);
        }
    }
    return to < top ? to : top;
}

static void forwards(void) {
    for (uint32_t root = 0; root < ROOTS; root++) {
        if (is_used(root) && !(bug == GLOBALS_NOT_FORWARDED && root >= BOARD)) {
            roots[root] = forward[place_of(roots[root])];
        }
    }
    for (uint32_t place = 1; place < top; place += size_of(place)) {
        for (uint32_t i = 0; is_marked[place] && i < references_of(place); i++) {
            uint64_t *reference = &space[place + 1 + i];
            *reference = forward[place_of(*reference)];
        }
    }
}

static void slides(void) {
    uint32_t size;
    for (uint32_t place = 1; place < top; place += size) {
        uint32_t to = forward[place];
        size = size_of(place);
        if (is_marked[place] && to != place) {
            memmove(space + to, space + place, (bug == COPIED_SHORT ? size / 2 * 2 : size) * sizeof *space);
            moves++;
        }
        if (bug != STALE_MARKS || to != place) {
            is_marked[place] = 0;
        }
    }
}

/* Ends the cycle, when nothing is grey. */
static void compacts(void) {
    uint32_t end = plans();
    forwards();
    slides();
    top = end;
    is_marking = 0;
}

/* Does a step of the collector, and makes room for an object if it can. What
** died during a cycle is freed by the next, so it tries two whole ones. */
static int has_room(uint32_t size) {
    if (!is_marking && top > words / 2) {
        starts_cycle();
    } else if (is_marking) {
        marks(size);
        if (grey_count == 0) {
            compacts();
        }
    }
    for (int tries = 0; words - top < size && tries < 2; tries++) {
        if (!is_marking) {
            starts_cycle();
        }
        marks(MOST_WORDS);
        compacts();
    }
    return words - top >= size;
}

/* Operations of the heap ------------------------------------------------- */

static metroheap world = METROHEAP_INIT;
static unsigned long judged;

static metroheap_reply answer(uint32_t kind, uint64_t first, uint64_t second) {
    metroheap_reply reply = {kind, {first, second}};
    return reply;
}

static metroheap_reply ok(void) {
    return answer(METROHEAP_REPLY_OK, 0, 0);
}

static metroheap_reply refused(uint64_t refusal) {
    return answer(METROHEAP_REPLY_REFUSED, refusal, 0);
}

/* Tells the judge what the VM answered to an operation, and stops at the first
** answer that isn't right. */
static void tells(const struct thread *t, uint32_t kind, uint32_t first, uint32_t second, uint64_t third,
                  metroheap_reply given) {
    metroheap_event event = metroheap_command(kind, t->session, first, second, third);
    metroheap_reply right;
    int32_t status = metroheap_judge(&world, &event, &given, &right);
    judged++;
    if (status == METROHEAP_DIFFERS) {
        printf("event %lu, after %lu cycles, ", judged, cycles);
        prints_event(stdout, &event);
        printf(": given is ");
        prints_reply(stdout, &given);
        printf(", and right is ");
        prints_reply(stdout, &right);
        printf("\n");
        metroheap_close(&world);
        exit(1);
    }
    if (status != METROHEAP_DONE) {
        fails(metroheap_status_text(status));
    }
    /* A refusal that is right is an error of the program, but where it asks whether a cell names anything. */
    if (given.kind == METROHEAP_REPLY_REFUSED && kind != METROHEAP_EVENT_SHAPE) {
        fails(refusal_name(given.numbers[0]));
    }
}

enum kind { REFERENCE, NUMBER };

/* A field of what a cell names. If there is none, it is null, and `*given` says why. */
static uint64_t *field_of(struct thread *t, uint32_t cell, enum kind kind, uint64_t index, metroheap_reply *given) {
    uint32_t place = place_of(cells_of(t)[cell]);
    uint32_t count = kind == REFERENCE ? references_of(place) : numbers_of(place);
    if (place == 0 || index >= count) {
        *given = refused(place == 0 ? METROHEAP_REFUSED_NULL : METROHEAP_REFUSED_NO_FIELD);
        return NULL;
    }
    *given = ok();
    return &space[place + 1 + (kind == NUMBER ? references_of(place) : 0) + index];
}

static void heap_new(struct thread *t, uint32_t cell, uint32_t references, uint32_t numbers) {
    uint32_t size = 1 + references + numbers;
    metroheap_reply given = ok();
    if (has_room(size)) {
        memset(space + top, 0, size * sizeof *space);
        space[top] = references | (uint64_t)numbers << 8;
        is_marked[top] = (unsigned char)is_marking;
        cells_of(t)[cell] = top;
        top += size;
    } else {
        given = refused(METROHEAP_REFUSED_HEAP_FULL);
    }
    tells(t, METROHEAP_EVENT_NEW, cell, references, numbers, given);
}

static void heap_get(struct thread *t, uint32_t cell, uint32_t object, uint64_t field) {
    metroheap_reply given;
    uint64_t *found = field_of(t, object, REFERENCE, field, &given);
    if (found != NULL) {
        cells_of(t)[cell] = *found;
    }
    tells(t, METROHEAP_EVENT_GET, cell, object, field, given);
}

static void heap_put(struct thread *t, uint32_t object, uint32_t field, uint32_t cell) {
    metroheap_reply given;
    uint64_t *found = field_of(t, object, REFERENCE, field, &given);
    if (found != NULL) {
        if (is_marking && bug != NO_BARRIER) {
            shades(*found);
        }
        *found = cells_of(t)[cell];
    }
    tells(t, METROHEAP_EVENT_PUT, object, field, cell, given);
}

static uint64_t heap_read(struct thread *t, uint32_t object, uint32_t index) {
    metroheap_reply given;
    uint64_t *found = field_of(t, object, NUMBER, index, &given);
    if (found != NULL) {
        given = answer(METROHEAP_REPLY_NUMBER, *found, 0);
    }
    tells(t, METROHEAP_EVENT_READ, object, index, 0, given);
    return given.numbers[0];
}

static void heap_write(struct thread *t, uint32_t object, uint32_t index, uint64_t number) {
    metroheap_reply given;
    uint64_t *found = field_of(t, object, NUMBER, index, &given);
    if (found != NULL) {
        *found = number;
    }
    tells(t, METROHEAP_EVENT_WRITE, object, index, number, given);
}

static void heap_copy(struct thread *t, uint32_t cell, uint32_t from) {
    cells_of(t)[cell] = cells_of(t)[from];
    tells(t, METROHEAP_EVENT_COPY, cell, from, 0, ok());
}

static void heap_clear(struct thread *t, uint32_t cell) {
    cells_of(t)[cell] = 0;
    tells(t, METROHEAP_EVENT_CLEAR, cell, 0, 0, ok());
}

static uint32_t heap_same(struct thread *t, uint32_t left, uint32_t right) {
    uint32_t is_same = cells_of(t)[left] == cells_of(t)[right];
    tells(t, METROHEAP_EVENT_SAME, left, right, 0, answer(is_same ? METROHEAP_REPLY_YES : METROHEAP_REPLY_NO, 0, 0));
    return is_same;
}

/* How many references an object has; -1 if the cell names none. */
static int heap_size(struct thread *t, uint32_t cell) {
    uint32_t place = place_of(cells_of(t)[cell]);
    metroheap_reply shape = answer(METROHEAP_REPLY_SHAPE, references_of(place), numbers_of(place));
    tells(t, METROHEAP_EVENT_SHAPE, cell, 0, 0, place == 0 ? refused(METROHEAP_REFUSED_NULL) : shape);
    return place == 0 ? -1 : (int)references_of(place);
}

static void heap_post(struct thread *t, uint32_t global, uint32_t cell) {
    roots[BOARD + global] = cells_of(t)[cell];
    tells(t, METROHEAP_EVENT_POST, global, cell, 0, ok());
}

static void heap_take(struct thread *t, uint32_t cell, uint32_t global) {
    cells_of(t)[cell] = roots[BOARD + global];
    tells(t, METROHEAP_EVENT_TAKE, cell, global, 0, ok());
}

static void heap_end(struct thread *t) {
    memset(cells_of(t), 0, CELLS * sizeof *roots);
    tells(t, METROHEAP_EVENT_END, 0, 0, 0, ok());
}

/* The interpreter -------------------------------------------------------- */

/* In parentheses is what an instruction takes from the stack of cells, and leaves there. Integers are taken from the
** other stack, and left there. Capitals are words of the code that follow the instruction. */
enum instruction {
    INT, ADD, SUB, REM, LESS, EQUAL,
    RANDOM,             /* an integer below another */
    ILOAD, ISTORE,      /* N: a local integer */
    NIL,                /* ( -- null) */
    LOAD,               /* N: ( -- what cell N names) */
    STORE,              /* N: (value -- ), into cell N */
    DROP,               /* (value -- ) */
    NEW,                /* R N: ( -- object) of R references and N numbers */
    GET, PUT,           /* F: (object -- value) and (object value -- object) */
    GETAT, PUTAT,       /* the same, where the field is an integer */
    READ, WRITE,        /* I: (object -- ) and (object -- object); the number is an integer */
    SAME,               /* (value value -- ) */
    ISNULL,             /* (value -- ) */
    SIZE,               /* (object -- ), how many references it has */
    POST, TAKE,         /* G: (value -- ) and ( -- value), a global */
    JUMP, ZERO, NONZERO, /* P: always, or if an integer is 0, or isn't 0; P is a place in the code */
    CALL,               /* P N: with the N upmost cells as the cells 0 to N - 1 of the function */
    RET,                /* N: with the N upmost cells, 0 or 1 */
    ASSERT,             /* an integer isn't 0 */
    END,
    INSTRUCTIONS
};

static const char *const NAMES[INSTRUCTIONS] = {
    "int",   "add",   "sub",   "rem",  "less", "equal", "random", "iload", "istore", "nil",   "load",
    "store", "drop",  "new",   "get",  "put",  "getat", "putat",  "read",  "write",  "same",  "null?",
    "size",  "post",  "take",  "jump", "zero", "nonzero", "call", "ret",   "assert", "end"};

static uint32_t code[1024];

/* The next word of the code. */
static uint32_t word_of(struct thread *t) {
    return code[t->place++];
}

static void push(struct thread *t, uint64_t integer) {
    if (t->count == MOST_INTEGERS) {
        fails("too many integers");
    }
    t->integers[t->count++] = integer;
}

static uint64_t pop(struct thread *t) {
    if (t->count == 0) {
        fails("no integer is left");
    }
    return t->integers[--t->count];
}

static uint32_t top_cell(const struct thread *t) {
    if (t->depth == 0) {
        fails("a stack is empty");
    }
    return t->depth - 1;
}

/* The cell that is the top now. What it had is forgotten before the collector looks. */
static uint32_t push_cell(struct thread *t) {
    if (t->depth == FRAME) {
        fails("a stack is full");
    }
    cells_of(t)[t->depth] = 0;
    return t->depth++;
}

/* The cell that was the top. */
static uint32_t pop_cell(struct thread *t) {
    return t->depth = top_cell(t);
}

/* Keeps what the caller has in a frame, which is an object, and begins the function. */
static void calls(struct thread *t, uint32_t function, uint32_t arguments) {
    uint32_t kept = t->depth - arguments, frame = push_cell(t);
    heap_new(t, frame, kept + 1, LOCALS + 1);
    heap_put(t, frame, 0, FRAME);
    for (uint32_t i = 0; i < kept; i++) {
        heap_put(t, frame, i + 1, i);
    }
    heap_write(t, frame, 0, t->place);
    for (uint32_t i = 0; i < LOCALS; i++) {
        heap_write(t, frame, i + 1, t->locals[i]);
    }
    heap_copy(t, FRAME, frame);
    for (uint32_t i = 0; i < arguments; i++) {
        heap_copy(t, i, kept + i);
    }
    t->depth = arguments;
    t->place = function;
}

static void returns(struct thread *t, uint32_t results) {
    uint32_t place = (uint32_t)heap_read(t, FRAME, 0), kept = (uint32_t)heap_size(t, FRAME) - 1;
    if (results > 0) {
        heap_copy(t, kept, top_cell(t));
    }
    for (uint32_t i = 0; i < kept; i++) {
        heap_get(t, i, FRAME, i + 1);
    }
    for (uint32_t i = 0; i < LOCALS; i++) {
        t->locals[i] = heap_read(t, FRAME, i + 1);
    }
    heap_get(t, FRAME, FRAME, 0);
    t->depth = kept + results;
    t->place = place;
}

/* Does the next instruction of a thread. */
static void does(struct thread *t) {
    uint32_t instruction = word_of(t), cell, word;
    uint64_t integer;
    switch (instruction) {
    case INT: push(t, word_of(t)); break;
    case ADD: integer = pop(t); push(t, pop(t) + integer); break;
    case SUB: integer = pop(t); push(t, pop(t) - integer); break;
    case REM: integer = pop(t); push(t, pop(t) % integer); break;
    case LESS: integer = pop(t); push(t, pop(t) < integer); break;
    case EQUAL: integer = pop(t); push(t, pop(t) == integer); break;
    case RANDOM: t->random = t->random * 1664525 + 1013904223; push(t, (t->random >> 8) % pop(t)); break;
    case ILOAD: push(t, t->locals[word_of(t)]); break;
    case ISTORE: t->locals[word_of(t)] = pop(t); break;
    case NIL: heap_clear(t, push_cell(t)); break;
    case LOAD: heap_copy(t, push_cell(t), word_of(t)); break;
    case STORE: heap_copy(t, word_of(t), pop_cell(t)); break;
    case DROP: pop_cell(t); break;
    case NEW: word = word_of(t); heap_new(t, push_cell(t), word, word_of(t)); break;
    case GET: heap_get(t, top_cell(t), top_cell(t), word_of(t)); break;
    case PUT: cell = pop_cell(t); heap_put(t, top_cell(t), word_of(t), cell); break;
    case GETAT: heap_get(t, top_cell(t), top_cell(t), (uint32_t)pop(t)); break;
    case PUTAT: cell = pop_cell(t); heap_put(t, top_cell(t), (uint32_t)pop(t), cell); break;
    case READ: push(t, heap_read(t, pop_cell(t), word_of(t))); break;
    case WRITE: heap_write(t, top_cell(t), word_of(t), pop(t)); break;
    case SAME: cell = pop_cell(t); push(t, heap_same(t, pop_cell(t), cell)); break;
    case ISNULL: push(t, heap_size(t, pop_cell(t)) < 0); break;
    case SIZE: push(t, (uint32_t)heap_size(t, pop_cell(t))); break;
    case POST: heap_post(t, word_of(t), pop_cell(t)); break;
    case TAKE: heap_take(t, push_cell(t), word_of(t)); break;
    case JUMP: t->place = code[t->place]; break;
    case ZERO: word = word_of(t); t->place = pop(t) == 0 ? word : t->place; break;
    case NONZERO: word = word_of(t); t->place = pop(t) != 0 ? word : t->place; break;
    case CALL: word = word_of(t); calls(t, word, word_of(t)); break;
    case RET: returns(t, word_of(t)); break;
    case ASSERT: if (pop(t) == 0) { fails("an assertion of a program"); } break;
    case END: heap_end(t); t->has_ended = 1; break;
    default: fails("no instruction");
    }
}

/* The programs ----------------------------------------------------------- */

static const char PROGRAMS[] =
    /* A list of 1 to 200 is built, reversed in place, and added up. */
    "lists: nil int 200 istore 0"
    " lists1: new 1 1 load 0 put 0 iload 0 write 0 store 0"
    "  iload 0 int 1 sub istore 0 iload 0 nonzero lists1"
    "  load 0 call reverse 1 store 0"
    "  load 0 read 0 int 200 equal assert load 0 call sum 1 int 20100 equal assert ret 0 "
    "reverse: nil nil"
    " reverse1: load 0 null? nonzero reverse2"
    "  load 0 get 0 store 2 load 0 load 1 put 0 store 1 load 2 store 0 jump reverse1"
    " reverse2: load 1 ret 1 "
    "sum: int 0"
    " sum1: load 0 null? nonzero sum2 load 0 read 0 add load 0 get 0 store 0 jump sum1"
    " sum2: ret 0 "
    /* A tree of 100 keys, of which the sum is known. */
    "trees: nil int 0 istore 0 int 100 istore 1"
    " trees1: int 1000000 random istore 2 iload 0 iload 2 add istore 0"
    "  load 0 iload 2 call insert 1 store 0"
    "  iload 1 int 1 sub istore 1 iload 1 nonzero trees1"
    "  load 0 call total 1 iload 0 equal assert ret 0 "
    "insert: istore 0 load 0 null? zero insert1 new 2 1 iload 0 write 0 ret 1"
    " insert1: load 0 iload 0 load 0 read 0 less zero insert2"
    "  load 0 get 0 iload 0 call insert 1 put 0 ret 1"
    " insert2: load 0 get 1 iload 0 call insert 1 put 1 ret 1 "
    "total: load 0 null? zero total1 int 0 ret 0"
    " total1: load 0 get 0 call total 1 load 0 get 1 call total 1 add load 0 read 0 add ret 0 "
    /* A queue between two threads: global 0 is its first node, which was taken already, and global 1 counts what was
    ** taken. A node has the next one and an object with three numbers. */
    "produce: istore 0 int 0 istore 1 new 0 1 post 1 new 2 1 load 0 post 0"
    " produce1: take 1 read 0 int 50 add iload 1 less nonzero produce1"
    "  new 2 1 iload 1 write 0 new 0 3 iload 1 write 2 put 1"
    "  load 0 load 1 put 0 drop store 0"
    "  iload 1 int 1 add istore 1 iload 1 iload 0 less nonzero produce1 end "
    "consume: istore 0 int 0 istore 1"
    " consume1: take 0 null? nonzero consume1 take 0"
    " consume2: load 0 get 0 null? nonzero consume2 load 0 get 0 store 0 load 0 post 0"
    "  load 0 read 0 iload 1 equal assert load 0 get 1 read 2 iload 1 equal assert"
    "  iload 1 int 1 add istore 1 take 1 iload 1 write 0 drop iload 1 iload 0 less nonzero consume2 end "
    /* A hash table of lists, of which some are dropped. */
    "hashes: new 64 0 int 300 istore 0"
    " hashes1: int 1000 random istore 1 new 1 1 iload 1 write 0"
    "  load 0 iload 1 load 0 size rem getat put 0 load 0 load 1 iload 1 int 64 rem putat drop"
    "  load 0 iload 1 int 64 rem getat same assert"
    "  int 4 random nonzero hashes2 load 0 nil int 64 random putat drop"
    " hashes2: iload 0 int 1 sub istore 0 iload 0 nonzero hashes1 int 64 istore 0"
    " hashes3: iload 0 int 1 sub istore 0 load 0 iload 0 getat"
    " hashes4: load 1 null? nonzero hashes5 load 1 read 0 int 64 rem iload 0 equal assert"
    "  load 1 get 0 store 1 jump hashes4"
    " hashes5: drop iload 0 nonzero hashes3 ret 0 "
    /* A graph with cycles: edges are changed, nodes are replaced, and walks go through it. */
    "graphs: new 40 0 int 40 istore 0"
    " graphs1: iload 0 int 1 sub istore 0"
    "  load 0 new 3 1 iload 0 write 0 iload 0 putat drop iload 0 nonzero graphs1 int 500 istore 0"
    " graphs2: load 0 int 40 random getat load 0 int 40 random getat int 3 random putat drop"
    "  int 8 random nonzero graphs3 int 40 random istore 1"
    "  load 0 new 3 1 iload 1 write 0 load 0 iload 1 getat put 0 iload 1 putat drop"
    " graphs3: load 0 int 40 random getat int 20 istore 1"
    " graphs4: load 1 read 0 int 40 less assert load 1 int 3 random getat store 1"
    "  load 1 null? nonzero graphs5 iload 1 int 1 sub istore 1 iload 1 nonzero graphs4"
    " graphs5: drop iload 0 int 1 sub istore 0 iload 0 nonzero graphs2 ret 0 "
    /* What the first thread and the last one do, so many times. */
    "first: istore 0"
    " first1: call lists 0 call trees 0 iload 0 int 1 sub istore 0 iload 0 nonzero first1 end "
    "last: istore 0"
    " last1: call hashes 0 call graphs 0 iload 0 int 1 sub istore 0 iload 0 nonzero last1 end ";

static struct {
    char name[16];
    uint32_t place;
} labels[64];
static uint32_t label_count;

/* What a word of a program is in the code: an instruction, the place of a label, or a number. */
static uint32_t code_of(const char *word) {
    for (uint32_t i = 0; i < INSTRUCTIONS; i++) {
        if (strcmp(NAMES[i], word) == 0) {
            return i;
        }
    }
    for (uint32_t i = 0; i < label_count; i++) {
        if (strcmp(labels[i].name, word) == 0) {
            return labels[i].place;
        }
    }
    if (*word < '0' || *word > '9') {
        fails(word);
    }
    return (uint32_t)strtoul(word, NULL, 10);
}

/* Finds the labels, or, once they are known, puts the programs into the code. */
static void assembles(int has_labels) {
    char word[16];
    int length;
    uint32_t size = 0;
    for (const char *text = PROGRAMS; sscanf(text, "%15s%n", word, &length) == 1; text += length) {
        size_t last = strlen(word) - 1;
        if (size == sizeof code / sizeof code[0] || label_count == sizeof labels / sizeof labels[0]) {
            fails("the programs are too long");
        }
        if (word[last] != ':') {
            code[size++] = has_labels ? code_of(word) : 0;
        } else if (!has_labels) {
            memcpy(labels[label_count].name, word, last);
            labels[label_count++].place = size;
        }
    }
}

/* Starts a thread at a function, with an integer. */
static void starts(uint32_t session, const char *function, uint64_t integer) {
    struct thread *t = &threads[session];
    t->session = session;
    t->random = session;
    t->place = code_of(function);
    push(t, integer);
}

/* Runs the threads in turn, some instructions each, until all have ended. */
static void runs(void) {
    enum { SLICE = 50 };
    int has_run = 1;
    while (has_run) {
        has_run = 0;
        for (struct thread *t = threads; t < threads + THREADS; t++) {
            for (int i = 0; i < SLICE && !t->has_ended; i++) {
                does(t);
                has_run = 1;
            }
        }
    }
}

static const char USAGE[] = "[--bug 0..5] [--rounds N] [--words N]";

static uint32_t option(const char *word, uint32_t least, uint32_t most) {
    size_t digits = strspn(word, "0123456789");
    unsigned long number = strtoul(word, NULL, 10);
    if (word[digits] != 0 || number < least || number > most) {
        fails(USAGE);
    }
    return (uint32_t)number;
}

int main(int count, char **arguments) {
    uint32_t rounds = 10;
    if (metroheap_version() != METROHEAP_VERSION_NUMBER) {
        fails("the header is not that of the library");
    }
    for (int i = 1; i < count; i += 2) {
        const char *number = i + 1 < count ? arguments[i + 1] : "?";
        if (strcmp(arguments[i], "--bug") == 0) {
            bug = (enum bug)option(number, NO_BUG, STALE_MARKS);
        } else if (strcmp(arguments[i], "--rounds") == 0) {
            rounds = option(number, 1, 1000000);
        } else if (strcmp(arguments[i], "--words") == 0) {
            words = option(number, 2, MOST_WORDS);
        } else {
            fails(USAGE);
        }
    }
    int32_t status = metroheap_open_world(&world, 2);
    if (status != METROHEAP_DONE) {
        fails(metroheap_status_text(status));
    }
    assembles(0);
    assembles(1);
    starts(0, "first", rounds);
    starts(1, "produce", UINT64_C(1000) * rounds);
    starts(2, "consume", UINT64_C(1000) * rounds);
    starts(3, "last", rounds);
    runs();
    printf("%lu events were judged, all right; %lu cycles moved %lu objects\n", judged, cycles, moves);
    metroheap_close(&world);
    return 0;
}
