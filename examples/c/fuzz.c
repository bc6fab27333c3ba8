/* Holds a heap against the world, by events as they lie in memory: each reply
** of the heap is judged by metroheap_judge on a world. The heap is the machine
** of the library; put your own in the place of `opens_heap` and `answers`, and
** let `tends` do nothing.
**
**     fuzz [--seed S] [--inputs N] [--events M]   tries N inputs of M events, at random
**     fuzz FILE ..                                tries what is in files
**
** The first 24 bytes of an input choose a configuration. Each 24 bytes after
** them are a `struct metroheap_event`, whose fields are cut down (`cuts`): so
** any bytes make objects, link them and drop them, and run quanta. One input in
** sixteen has its events as they are, most of which are none. Before some events
** room is made for others, the trace is forgotten, or a report is seen.
**
** For libFuzzer, and for AFL++, which takes the same function in its persistent
** mode, build it so; a folder of files with bytes at random is a good beginning:
**
**     clang -g -O1 -fsanitize=fuzzer,address,undefined -DWITH_FUZZER fuzz.c -lmetroheap -o fuzz
**     afl-clang-fast -g -O1 -fsanitize=fuzzer -DWITH_FUZZER fuzz.c -lmetroheap -o fuzz
**
** At a difference it prints the event, what was given and what is right, and
** aborts. Exits 0 without one, and 2 if it can't begin.
*/
#include "names.h"

#include <stdlib.h>
#include <string.h>

int LLVMFuzzerTestOneInput(const uint8_t *data, size_t size);

static metroheap heap = METROHEAP_INIT, world = METROHEAP_INIT;

/* The input and the event in it, counted from 1, and how many events were judged. */
static uint64_t input_number, event_number, judged, controls, full;

static void fails(const char *what, int32_t status) {
    fprintf(stderr, "fuzz: input %" PRIu64 ", event %" PRIu64 ": %s: %s\n", input_number, event_number, what,
            metroheap_status_text(status));
    abort();
}

/* The heap that is judged ------------------------------------------------ */

/* The quantum of its configuration, and the units since its trace was forgotten. */
static uint32_t quantum;
static uint64_t traced;

/* Opens it anew. Whether memory was there. */
static int opens_heap(const metroheap_event *head) {
    uint32_t pages = 1 + head->first % 48;
    uint32_t trigger = (uint32_t)(head->third % (pages + 1)), every = (uint32_t)(head->third >> 32) % 60;
    quantum = 209 + head->second % 120;
    traced = 0;
    int32_t status = metroheap_open(&heap, pages, quantum, trigger, every, 1 + head->session % 2);
    if (status == METROHEAP_DONE) {
        /* It does the same if it tells its deeds. */
        status = metroheap_tell(&heap, head->kind >> 4 & 1);
    }
    return status == METROHEAP_DONE;
}

/* Asks it. If the event isn't done, the status says why. */
static int32_t answers(const metroheap_event *event, metroheap_reply *reply) {
    metroheap_units units;
    int32_t status = metroheap_step(&heap, event, reply);
    if (status == METROHEAP_DONE) {
        if (metroheap_last_units(&heap, &units) != METROHEAP_DONE || units.at != traced) {
            fails("units are elsewhere in the trace", status);
        }
        traced += units.mutator + units.collector;
    }
    return status;
}

/* Sees a report, which has all units of the trace, and keeps what the configuration promises. */
static void sees_report(uint64_t window) {
    metroheap_reply reply;
    const uint64_t *n = reply.numbers;
    int32_t status = metroheap_see_report(&heap, window, &reply);
    if (status != METROHEAP_DONE || reply.kind != METROHEAP_REPLY_REPORT) {
        fails("no report is seen", status);
    }
    if (n[METROHEAP_REPORT_MUTATOR] + n[METROHEAP_REPORT_COLLECTOR] != traced ||
        n[METROHEAP_REPORT_HAS_LEAST] != (window <= traced)) {
        fails("a report has other units", status);
    }
    if (n[METROHEAP_REPORT_GREATEST] > quantum ||
        (n[METROHEAP_REPORT_HAS_LEAST] && n[METROHEAP_REPORT_LEAST] < n[METROHEAP_REPORT_FLOOR])) {
        fails("a report doesn't keep its promise", status);
    }
}

/* Does what is no event, but mostly nothing. A byte of the kind chooses, of which `cuts` makes no use. */
static void tends(const metroheap_event *event) {
    uint32_t choice = event->kind >> 16 & 255;
    int32_t status = METROHEAP_DONE;
    if (choice >= 254) {
        status = metroheap_reserve(&heap, (size_t)(event->third % 2000));
    } else if (choice >= 252) {
        status = metroheap_forget(&heap);
        traced = 0;
    } else if (choice >= 248) {
        sees_report(event->third % 64 ? event->third % 3000 : event->third);
    }
    if (status != METROHEAP_DONE && status != METROHEAP_NO_MEMORY) {
        fails("the heap isn't tended", status);
    }
}

/* Judging ---------------------------------------------------------------- */

static void differs(const metroheap_event *event, const metroheap_reply *given, const metroheap_reply *right) {
    fprintf(stderr, "fuzz: input %" PRIu64 ", event %" PRIu64 ": ", input_number, event_number);
    prints_event(stderr, event);
    fprintf(stderr, ": given is ");
    prints_reply(stderr, given);
    fprintf(stderr, ", and right is ");
    prints_reply(stderr, right);
    fprintf(stderr, "\n");
    abort();
}

/* Does an event on both. Whether the input goes on: it ends where memory is refused. */
static int judges(const metroheap_event *event) {
    metroheap_reply given = {0, {0}}, right;
    int32_t asked = answers(event, &given);
    if (asked == METROHEAP_NO_MEMORY) {
        return 0;
    }
    if (asked != METROHEAP_DONE && asked != METROHEAP_WRONG) {
        fails("the heap doesn't answer", asked);
    }
    int32_t status = metroheap_judge(&world, event, &given, &right);
    if (status == METROHEAP_NO_MEMORY) {
        return 0;
    }
    if (status == METROHEAP_DIFFERS) {
        differs(event, &given, &right);
    }
    if (status != asked) {
        fails("what is an event to one is none to the other", status);
    }
    judged += status == METROHEAP_DONE;
    controls += status == METROHEAP_DONE && event->kind >= METROHEAP_EVENT_QUANTUM;
    full += given.kind == METROHEAP_REPLY_REFUSED && given.numbers[0] == METROHEAP_REFUSED_HEAP_FULL;
    return 1;
}

/* Slots below 18, of which two are bad, and mostly below 6, so that few are empty. */
static uint32_t slot(uint64_t field) {
    return (uint32_t)(field % 64 < 60 ? field % 6 : field % 18);
}

/* Mostly the first field, and else one of the first or last that objects have. */
static uint32_t index_of(uint64_t field) {
    return (uint32_t)(field % 16 < 8 ? 0 : field % 16 < 12 ? field % 4 : 48 + field / 16 % 12);
}

/* The kind that a number chooses: each as often as its weight says, of 32 times. */
static uint32_t kind_of(uint32_t number) {
    static const struct {
        uint32_t kind, weight;
    } kinds[] = {{METROHEAP_EVENT_NEW, 8},   {METROHEAP_EVENT_GET, 4},   {METROHEAP_EVENT_PUT, 6},
                 {METROHEAP_EVENT_COPY, 1},  {METROHEAP_EVENT_CLEAR, 1}, {METROHEAP_EVENT_READ, 2},
                 {METROHEAP_EVENT_WRITE, 2}, {METROHEAP_EVENT_SAME, 1},  {METROHEAP_EVENT_SHAPE, 1},
                 {METROHEAP_EVENT_POST, 1},  {METROHEAP_EVENT_TAKE, 1},  {METROHEAP_EVENT_QUANTUM, 2},
                 {METROHEAP_EVENT_START, 1}, {METROHEAP_EVENT_END, 1}};
    uint32_t rest = number % 32, at = 0;
    while (rest >= kinds[at].weight) {
        rest -= kinds[at++].weight;
    }
    return kinds[at].kind;
}

/* Cuts the fields down. Most sessions are 3, and most objects have up to 3 references and 3 numbers. */
static void cuts(metroheap_event *event) {
    static const uint32_t others[] = {METROHEAP_EVENT_DUMP, METROHEAP_EVENT_STAT, METROHEAP_EVENT_LEFT,
                                      METROHEAP_EVENT_REPORT};
    uint32_t size = event->kind >> 24;
    event->kind = kind_of(event->kind);
    /* An end is seldom, since it loses a session. */
    if (event->kind == METROHEAP_EVENT_END && size > 1) {
        event->kind = others[event->second % 4];
    }
    event->session = event->session % 64 < 62 ? event->session % 3 : event->session % 9;
    event->first = slot(event->first);
    switch (event->kind) {
    case METROHEAP_EVENT_NEW:
        event->second %= 4;
        /* Few large ones of several blocks, and some of which a page has four, so that pages become sparse. */
        event->third = size < 2 ? event->third % 4000 : size < 64 ? 49 + event->third % 12 : event->third % 4;
        break;
    case METROHEAP_EVENT_GET:
        event->second = slot(event->second);
        event->third = index_of(event->third);
        break;
    case METROHEAP_EVENT_PUT:
        event->second = index_of(event->second);
        event->third = slot(event->third);
        break;
    case METROHEAP_EVENT_READ:
    case METROHEAP_EVENT_WRITE:
        event->second = index_of(event->second);
        break;
    default:
        event->second = slot(event->second);
    }
}

int LLVMFuzzerTestOneInput(const uint8_t *data, size_t size) {
    metroheap_event head, event;
    if (size < sizeof head) {
        return 0;
    }
    memcpy(&head, data, sizeof head);
    if (!opens_heap(&head) || metroheap_open_world(&world, 1 + head.session % 2) != METROHEAP_DONE) {
        return 0;
    }
    int goes_on = 1;
    input_number++;
    for (size_t at = sizeof head; goes_on && size - at >= sizeof event; at += sizeof event) {
        event_number = at / sizeof event;
        memcpy(&event, data + at, sizeof event);
        tends(&event);
        if (head.kind % 16 > 0) {
            cuts(&event);
        }
        goes_on = judges(&event);
    }
    return 0;
}

#ifndef WITH_FUZZER

/* Inputs at random ------------------------------------------------------- */

static uint64_t state;

/* SplitMix64 of G. Steele, D. Lea and C. Flood. */
static uint64_t next_random(void) {
    uint64_t z = state += UINT64_C(0x9e3779b97f4a7c15);
    z = (z ^ z >> 30) * UINT64_C(0xbf58476d1ce4e5b9);
    z = (z ^ z >> 27) * UINT64_C(0x94d049bb133111eb);
    return z ^ z >> 31;
}

static void stops(const char *what) {
    fprintf(stderr, "fuzz: %s\n", what);
    exit(2);
}

static void *makes_room(size_t size) {
    void *room = malloc(size);
    if (room == NULL) {
        stops("memory was refused");
    }
    return room;
}

/* Tries inputs at random. */
static void tries_random(uint64_t seed, uint64_t inputs, size_t events) {
    size_t size = (events + 1) * sizeof(metroheap_event);
    uint64_t *words = makes_room(size);
    for (uint64_t input = 0; input < inputs; input++) {
        state = seed * UINT64_C(0x9e3779b97f4a7c15) + input;
        for (size_t i = 0; i < size / sizeof *words; i++) {
            words[i] = next_random();
        }
        LLVMFuzzerTestOneInput((const uint8_t *)words, size);
    }
    free(words);
}

static void tries_file(const char *name) {
    FILE *file = fopen(name, "rb");
    long size = -1;
    if (file != NULL && fseek(file, 0, SEEK_END) == 0) {
        size = ftell(file);
        rewind(file);
    }
    if (size < 0) {
        stops("a file can't be read");
    }
    uint8_t *data = makes_room((size_t)size + 1);
    if (fread(data, 1, (size_t)size, file) != (size_t)size) {
        stops("a file can't be read");
    }
    fclose(file);
    LLVMFuzzerTestOneInput(data, (size_t)size);
    free(data);
}

static const char USAGE[] = "[--seed S] [--inputs N] [--events M], or files";

/* A number of at most 9 digits. */
static uint64_t number(const char *word) {
    size_t digits = strspn(word, "0123456789");
    if (digits == 0 || digits > 9 || word[digits] != 0) {
        stops(USAGE);
    }
    return strtoull(word, NULL, 10);
}

int main(int count, char **words) {
    uint64_t seed = 1, inputs = 1000, events = 1000;
    int at = 1;
    if (metroheap_version() != METROHEAP_VERSION_NUMBER) {
        stops("the header is not that of the library");
    }
    for (; at + 1 < count && strncmp(words[at], "--", 2) == 0; at += 2) {
        uint64_t given = number(words[at + 1]);
        if (strcmp(words[at], "--seed") == 0) {
            seed = given;
        } else if (strcmp(words[at], "--inputs") == 0) {
            inputs = given;
        } else if (strcmp(words[at], "--events") == 0) {
            events = given;
        } else {
            stops(USAGE);
        }
    }
    if (at == count) {
        tries_random(seed, inputs, (size_t)events);
    }
    for (; at < count; at++) {
        if (strncmp(words[at], "--", 2) == 0) {
            stops(USAGE);
        }
        tries_file(words[at]);
    }
    printf("%" PRIu64 " events were judged, all right; %" PRIu64 " of them controls, %" PRIu64 " a full heap\n", judged,
           controls, full);
    metroheap_close(&heap);
    metroheap_close(&world);
    return 0;
}

#endif
