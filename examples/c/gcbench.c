/* GCBench, after J. Ellis and P. Kovac, as modified by H. Boehm: trees are
** built top down and bottom up and dropped, while a long-lived tree and array
** stay. Its objects are in the heap of the library, and its variables in the
** slots of a session.
**
**     gcbench [--depth D] [PAGES QUANTUM TRIGGER EVERY]   runs it, and prints the report
**     gcbench --script [--depth D] [PAGES ..]             prints it as a script, with a report at its end
**     gcbench --pauses [--depth D] [PAGES ..]             runs it, and prints a log of its pauses
**
** D is the depth of the tree that stretches the heap, 8 to 15. The original's
** is 18, and the rest has the relation to it that it has there: the long-lived
** tree has depth D - 2, the array 500,000 numbers, halved for each level below
** 18, and the other trees the depths 4, 6, .. up to D - 2. Of each depth there
** are as many, each way, as have twice the nodes of the stretching tree. If D
** isn't given it is 15.
**
** A node has two references and two numbers, which are 8 words with its header.
** So a page of 256 words has 32, and the stretching tree takes 2^(D - 4) pages.
** If no heap is given it has twice as many: 1,024 for a depth of 13, and 4,096,
** the most, for 15. What stays takes a fifth of it. Then a cycle takes so long
** that its quanta have two units of three.
**
** Room is made for 100,000 events at the start, and the trace is forgotten each
** time that so many were done. What is printed is the sum of their reports: all
** units and quanta, the greatest quantum, and the least share of a window that
** is within one of them.
**
** Exits 1 if the heap is full, and 2 if anything else stops it.
*/
#include "names.h"

#include <stdlib.h>
#include <string.h>

enum { LEAST_DEPTH = 4, ORIGINAL_DEPTH = 18, ORIGINAL_ARRAY = 500000 };

/* A node has two references and two numbers. */
enum { LEFT = 0, RIGHT = 1, REFERENCES = 2, NUMBERS = 2 };

/* Slots of the board, for what lives long. */
enum { TREE = 0, ARRAY = 1 };

/* For so many events room is made. */
enum { ROOM = 100000 };

static metroheap heap = METROHEAP_INIT;
static uint32_t pages, quantum = 600, trigger, every = 300;
static int stretch_depth = 15, writes_script, writes_pauses;
static uint64_t window;

/* How many events were done since the trace was forgotten, and the sum of the reports before. */
static uint32_t done;
static uint64_t sum[9];

static void fails(const char *what) {
    fprintf(stderr, "gcbench: %s\n", what);
    exit(2);
}

static void checks(int32_t status) {
    if (status != METROHEAP_DONE) {
        fails(metroheap_status_text(status));
    }
}

/* Prints what the last event added to the trace, as `metroheap curve --pauses` reads it. */
static void prints_pause(void) {
    metroheap_units units;
    checks(metroheap_last_units(&heap, &units));
    printf("mutator %" PRIu64 "\n", units.mutator);
    if (units.ran) {
        printf("collector %" PRIu64 "\n", units.collector);
    }
}

/* Adds the report of the trace to the sum, and forgets the trace. */
static void forgets(void) {
    metroheap_reply reply;
    const uint64_t *n = reply.numbers;
    checks(metroheap_see_report(&heap, window, &reply));
    for (int i = METROHEAP_REPORT_MUTATOR; i <= METROHEAP_REPORT_QUANTA; i++) {
        sum[i] += n[i];
    }
    if (n[METROHEAP_REPORT_GREATEST] > sum[METROHEAP_REPORT_GREATEST]) {
        sum[METROHEAP_REPORT_GREATEST] = n[METROHEAP_REPORT_GREATEST];
    }
    sum[METROHEAP_REPORT_WINDOW] = window;
    if (n[METROHEAP_REPORT_HAS_LEAST] &&
        (!sum[METROHEAP_REPORT_HAS_LEAST] || n[METROHEAP_REPORT_LEAST] < sum[METROHEAP_REPORT_LEAST])) {
        sum[METROHEAP_REPORT_HAS_LEAST] = 1;
        sum[METROHEAP_REPORT_LEAST] = n[METROHEAP_REPORT_LEAST];
    }
    sum[METROHEAP_REPORT_HAS_FLOOR] = n[METROHEAP_REPORT_HAS_FLOOR];
    sum[METROHEAP_REPORT_FLOOR] = n[METROHEAP_REPORT_FLOOR];
    checks(metroheap_forget(&heap));
    done = 0;
}

/* Does a command of session 0, or prints it. */
static metroheap_reply command(uint32_t kind, uint32_t first, uint32_t second, uint64_t third) {
    metroheap_event event = metroheap_command(kind, 0, first, second, third);
    metroheap_reply reply = {METROHEAP_REPLY_OK, {0}};
    if (writes_script) {
        prints_event(stdout, &event);
        putchar('\n');
        return reply;
    }
    checks(metroheap_step(&heap, &event, &reply));
    if (reply.kind == METROHEAP_REPLY_REFUSED) {
        fprintf(stderr, "gcbench: %s\n", refusal_name(reply.numbers[0]));
        exit(reply.numbers[0] == METROHEAP_REFUSED_HEAP_FULL ? 1 : 2);
    }
    if (writes_pauses) {
        prints_pause();
    }
    if (++done == ROOM) {
        forgets();
    }
    return reply;
}

static void makes_node(uint32_t slot) {
    command(METROHEAP_EVENT_NEW, slot, REFERENCES, NUMBERS);
}

static void puts_child(uint32_t slot, uint32_t field, uint32_t child) {
    command(METROHEAP_EVENT_PUT, slot, field, child);
}

/* Builds a tree top down below the node in a slot, and uses the slots after it. */
static void populates(int depth, uint32_t slot) {
    if (depth <= 0) {
        return;
    }
    for (uint32_t field = LEFT; field <= RIGHT; field++) {
        makes_node(slot + 1);
        puts_child(slot, field, slot + 1);
        populates(depth - 1, slot + 1);
    }
}

/* Builds a tree bottom up, with its root in a slot, and uses the slots after it. */
static void makes_tree(int depth, uint32_t slot) {
    if (depth <= 0) {
        makes_node(slot);
        return;
    }
    makes_tree(depth - 1, slot);
    makes_tree(depth - 1, slot + 1);
    makes_node(slot + 2);
    puts_child(slot + 2, LEFT, slot);
    puts_child(slot + 2, RIGHT, slot + 1);
    command(METROHEAP_EVENT_COPY, slot, slot + 2, 0);
}

/* Lets the slots name nothing. */
static void drops_all(void) {
    for (uint32_t slot = 0; slot < 16; slot++) {
        command(METROHEAP_EVENT_CLEAR, slot, 0, 0);
    }
}

/* Builds the tree that stretches the heap bottom up, and drops it. A tree of depth 15 takes 17 slots, so one half of it
** waits on the board. */
static void stretches(void) {
    makes_tree(stretch_depth - 1, 0);
    command(METROHEAP_EVENT_POST, TREE, 0, 0);
    makes_tree(stretch_depth - 1, 0);
    command(METROHEAP_EVENT_TAKE, 1, TREE, 0);
    makes_node(2);
    puts_child(2, LEFT, 1);
    puts_child(2, RIGHT, 0);
    drops_all();
    command(METROHEAP_EVENT_POST, TREE, 0, 0);
}

static long tree_size(int depth) {
    return (1L << (depth + 1)) - 1;
}

/* Builds as many trees of a depth, each way, as have twice the nodes of the stretching tree. */
static void builds_trees(int depth) {
    long count = 2 * tree_size(stretch_depth) / tree_size(depth);
    for (long i = 0; i < count; i++) {
        makes_node(0);
        populates(depth, 0);
        drops_all();
    }
    for (long i = 0; i < count; i++) {
        makes_tree(depth, 0);
        drops_all();
    }
}

static uint32_t array_size(void) {
    return (uint32_t)ORIGINAL_ARRAY >> (ORIGINAL_DEPTH - stretch_depth);
}

static void keeps_long_lived(void) {
    makes_node(0);
    populates(stretch_depth - 2, 0);
    command(METROHEAP_EVENT_POST, TREE, 0, 0);
    command(METROHEAP_EVENT_NEW, 0, 0, array_size());
    command(METROHEAP_EVENT_POST, ARRAY, 0, 0);
    for (uint32_t i = 0; i < array_size() / 2; i++) {
        command(METROHEAP_EVENT_WRITE, 0, i, (uint64_t)i + 1);
    }
    drops_all();
}

/* The long-lived data is still there: a number of the array, and the tree to its depth. */
static void looks_at_long_lived(void) {
    uint32_t index = array_size() / 4;
    command(METROHEAP_EVENT_TAKE, 0, ARRAY, 0);
    metroheap_reply number = command(METROHEAP_EVENT_READ, 0, index, 0);
    if (!writes_script && number.numbers[0] != (uint64_t)index + 1) {
        fails("the array lost a number");
    }
    command(METROHEAP_EVENT_TAKE, 0, TREE, 0);
    for (int depth = 0; depth < stretch_depth - 2; depth++) {
        command(METROHEAP_EVENT_GET, 0, 0, (uint64_t)(depth % 2));
    }
    command(METROHEAP_EVENT_READ, 0, 0, 0);
}

static void does_all(void) {
    stretches();
    keeps_long_lived();
    if (writes_script) {
        printf("# what stays was built\n");
    }
    for (int depth = LEAST_DEPTH; depth <= stretch_depth - 2; depth += 2) {
        builds_trees(depth);
    }
    looks_at_long_lived();
}

static void prints_report(void) {
    forgets();
    prints_report_numbers(stdout, sum);
    printf("\nleast utilisation %.2f%%, promised %.2f%%\n",
           100.0 * (double)sum[METROHEAP_REPORT_LEAST] / (double)window,
           100.0 * (double)sum[METROHEAP_REPORT_FLOOR] / (double)window);
}

static const char USAGE[] = "[--script | --pauses] [--depth D] [PAGES QUANTUM TRIGGER EVERY]";

/* A number of at most 9 digits. */
static uint32_t number(const char *word) {
    size_t digits = strspn(word, "0123456789");
    if (digits == 0 || digits > 9 || word[digits] != 0) {
        fails(USAGE);
    }
    return (uint32_t)strtoul(word, NULL, 10);
}

int main(int count, char **words) {
    int at = 1;
    if (metroheap_version() != METROHEAP_VERSION_NUMBER) {
        fails("the header is not that of the library");
    }
    for (; at < count && strncmp(words[at], "--", 2) == 0; at++) {
        if (strcmp(words[at], "--script") == 0) {
            writes_script = 1;
        } else if (strcmp(words[at], "--pauses") == 0) {
            writes_pauses = 1;
        } else if (strcmp(words[at], "--depth") == 0 && at + 1 < count) {
            stretch_depth = (int)number(words[++at]);
        } else {
            fails(USAGE);
        }
    }
    if (stretch_depth < 8 || stretch_depth > 15) {
        fails("a depth goes from 8 to 15");
    }
    pages = UINT32_C(1) << (stretch_depth - 3);
    trigger = 3 * pages / 8;
    if (count - at == 4) {
        pages = number(words[at]);
        quantum = number(words[at + 1]);
        trigger = number(words[at + 2]);
        every = number(words[at + 3]);
    } else if (count != at) {
        fails(USAGE);
    }
    /* Ten rounds of the scheduler. */
    window = 10 * ((uint64_t)every + quantum);
    if (writes_script) {
        printf("config %" PRIu32 " %" PRIu32 " %" PRIu32 " %" PRIu32 "\n", pages, quantum, trigger, every);
        does_all();
        printf("* report %" PRIu64 "\n", window);
        return 0;
    }
    checks(metroheap_open(&heap, pages, quantum, trigger, every, 2));
    checks(metroheap_reserve(&heap, ROOM));
    does_all();
    if (!writes_pauses) {
        prints_report();
    }
    metroheap_close(&heap);
    return 0;
}
