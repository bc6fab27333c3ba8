/*
** metroheap.h - the metroheap machine behind a handle, for C and C++.
**
** The machine is the one that `metroheap run` runs: a heap of pages, its
** collector, the scheduler of quanta and the trace. An event goes in, as the
** line of a script or as numbers, and its reply comes out, as text or as
** numbers. Both ways drive one machine and may be mixed. docs/MANUAL.md says
** what each event does and what its reply means.
**
** Most programs need six calls:
**
**     metroheap_open        makes a machine, or metroheap_open_world a world
**     metroheap_ask         does the event of a line, and gives the reply
**     metroheap_step        does an event that is given as numbers
**     metroheap_judge       does an event, and judges another collector's reply
**     metroheap_again       gives the text of the last reply once more
**     metroheap_close       frees the machine
**
** If a text doesn't fit its buffer the status is METROHEAP_SHORT, and
** `*written` is its length. The event WAS DONE. Don't ask the line again, since
** that would do the event a second time: metroheap_last_text and
** metroheap_again give the text as often as you like.
**
** Link with libmetroheap.a, which scripts/build-library makes. It needs
** malloc, realloc, free, memcpy, memmove and memset of the C library, and
** nothing else. It has no state of its own outside the handles, starts no
** thread, prints nothing, opens no file and never ends the process.
**
** WHAT A CALLER OWES
**
** Every other mistake of a caller is answered by a status; these can't be:
**
**   *  No pointer is null, unless a function allows it. Each points to as
**      much memory as its type or its length says.
**   *  The arguments of one call don't overlap, unless a function allows it.
**   *  A handle is METROHEAP_INIT, or as a function of this header left it.
**      Nothing else writes to it. An open handle isn't copied: two copies
**      would be one machine, which would be freed twice. A handle may be
**      moved, if the old place isn't used again.
**   *  A handle is used by one call at a time. Another thread may go on with it
**      if a lock, the start or the end of a thread, or a sequentially
**      consistent atomic comes between. Different handles share nothing.
**   *  malloc and realloc align blocks as the C standard says. No function is
**      called from a signal handler, or from a forked child of a process with
**      threads.
**
** WHO OWNS WHAT
**
** The handle owns its machine or world. metroheap_close frees it, and so do
** metroheap_open and metroheap_open_world if they open another one in its
** place. Every buffer, struct and line belongs to the caller; no function keeps
** a pointer to one.
*/
#ifndef METROHEAP_H
#define METROHEAP_H

#include <stddef.h>
#include <stdint.h>
#include <string.h>

/* The version of this header, which is that of `metroheap --version`. */
#define METROHEAP_VERSION "2.0.0"
#define METROHEAP_VERSION_NUMBER 2000000

#ifdef __cplusplus
extern "C" {
#endif

/*
** The METROHEAP_VERSION_NUMBER of the header with which the library was made:
** 1,000,000 for each of the first number, 1,000 for each of the second. Any
** thread may ask at any time.
*/
uint32_t metroheap_version(void);

/*
** A handle. It is opaque: only the functions below read or change it.
** METROHEAP_INIT makes a closed one, as in
**
**     metroheap heap = METROHEAP_INIT;
*/
typedef struct metroheap {
    void *machine;
} metroheap;
#define METROHEAP_INIT {0}

/*
** How a call ended. Unless the status is METROHEAP_DONE, METROHEAP_SHORT,
** METROHEAP_NO_TEXT or METROHEAP_DIFFERS, the machine and its last reply are as
** they were before the call.
*/
enum metroheap_status {
    METROHEAP_DONE = 0,       /* it was done */
    METROHEAP_BLANK = 1,      /* the line is empty or a comment */
    METROHEAP_WRONG = 2,      /* the line or the numbers are no event */
    METROHEAP_FULL = 3,       /* 2^42 events were done, the most of all */
    METROHEAP_NO_MEMORY = 4,  /* memory was refused */
    METROHEAP_CLOSED = 5,     /* the handle is closed */
    METROHEAP_BAD_CONFIG = 6, /* the numbers are no configuration */
    METROHEAP_SHORT = 7,      /* the text is longer than the buffer */
    METROHEAP_NO_TEXT = 8,    /* memory was refused for the text */
    METROHEAP_NO_REPLY = 9,   /* no event was done yet */
    METROHEAP_NO_ITEM = 10,   /* there is no such item, deed or reason */
    METROHEAP_NO_DEEDS = 11,  /* deeds weren't kept, or memory was refused */
    METROHEAP_DIFFERS = 12,   /* the reply that was judged isn't right */
    METROHEAP_IS_WORLD = 13   /* a world has no collector and no trace */
};

/* A status as text without an end of line, such as "the handle is closed". */
static inline const char *metroheap_status_text(int32_t status) {
    static const char *const texts[] = {
        "done",
        "the line is empty or a comment",
        "the line or the numbers are no event",
        "as many events were done as may be",
        "memory was refused",
        "the handle is closed",
        "the numbers are no configuration",
        "the text is longer than the buffer",
        "memory was refused for the text",
        "no event was done yet",
        "there is no such item, deed or reason",
        "deeds were not kept, or memory was refused for one",
        "the reply is not right",
        "a world has no collector and no trace"};
    return status >= 0 && status <= METROHEAP_IS_WORLD ? texts[status] : "no status";
}

/* Opening and closing ---------------------------------------------------- */

/*
** Opens a machine with the four numbers of a script's line
** `config PAGES QUANTUM TRIGGER EVERY`, and with version 1 or 2 of the rules.
** Scripts are run under rules 2, which allow larger objects.
**
** The handle may be open already. Then its machine is freed after the new one
** was made.
**
** METROHEAP_DONE        the handle has the new machine, which has done nothing
** METROHEAP_BAD_CONFIG  a number is outside the limits; the handle is as it was
** METROHEAP_NO_MEMORY   the handle is as it was
*/
int32_t metroheap_open(metroheap *heap, uint32_t pages, uint32_t quantum,
                       uint32_t trigger, uint32_t every, uint32_t rules);

/*
** Opens a world: a heap that never collects, never moves objects and is never
** full, under rules 1 or 2. It has sessions and their objects, and neither pages
** nor a collector nor a trace. Its replies to sessions are those of every
** correct collector, except that it never answers `heap full`. So replies can be
** compared, or judged by metroheap_judge, without a configuration.
**
** It does the commands of sessions, as text or as numbers, 2^42 at most. A
** control has the status METROHEAP_IS_WORLD, and so have the calls that ask for
** a collector or a trace; a world has no deeds. It keeps every object, so memory
** may be refused for a new one.
**
** The handle may be open already, as for metroheap_open.
**
** METROHEAP_DONE        the handle has the new world, which has done nothing
** METROHEAP_BAD_CONFIG  the rules are not 1 or 2; the handle is as it was
** METROHEAP_NO_MEMORY   the handle is as it was
*/
int32_t metroheap_open_world(metroheap *heap, uint32_t rules);

/*
** Frees the machine of a handle, and leaves the handle closed. A closed handle
** stays closed. If the pointer is null, nothing is done.
*/
void metroheap_close_nonnull(metroheap *heap);
static inline void metroheap_close(metroheap *heap) {
    if (heap != NULL) {
        metroheap_close_nonnull(heap);
    }
}

/* Events as text --------------------------------------------------------- */

/*
** Does the event of a line of a script, which may end with one newline, and
** copies the text of its reply to the start of `out`. The text has no end of
** line and no zero after it. `*written` is its length. `line` and `out` may be
** null if their length is 0. metroheap_reason says why a line is
** METROHEAP_WRONG.
**
** This call and the next two are shorthands for the functions with the longer
** names, which the library has and which take no null pointer.
**
** Sessions are numbered from 0 in the order in which events that were done first
** named them. An event given as numbers has the number itself, and no name.
**
** METROHEAP_DONE       the event was done; the text is in `out`
** METROHEAP_SHORT      the event was done; `*written` bytes are needed, `out`
**                      is as it was; ask metroheap_last_text, since this
**                      call would do the event once more
** METROHEAP_NO_TEXT    the event was done; memory was refused for its text;
**                      ask metroheap_last_text or metroheap_last_reply
** METROHEAP_BLANK, METROHEAP_WRONG, METROHEAP_FULL, METROHEAP_NO_MEMORY,
** METROHEAP_CLOSED, METROHEAP_IS_WORLD   nothing was done; `*written` is 0
**
** Memory may be refused for a command, for a quantum that is asked for, and
** for a dump; in a world only for a new object. A later call may succeed. After
** metroheap_reserve it is refused for none of these but a dump.
*/
int32_t metroheap_line_nonnull(metroheap *heap, const char *line,
                               size_t line_length, char *out,
                               size_t out_length, size_t *written);
static inline int32_t metroheap_line(metroheap *heap, const char *line,
                                     size_t line_length, char *out,
                                     size_t out_length, size_t *written) {
    char none = 0;
    return metroheap_line_nonnull(heap, line_length ? line : "", line_length,
                                  out_length ? out : &none, out_length,
                                  written);
}

/*
** Copies the text of the last reply, as metroheap_line does. It may be asked
** for as often as wanted, also if the event was asked by numbers.
**
** METROHEAP_DONE       the text is in `out`
** METROHEAP_SHORT      `*written` bytes are needed; `out` is as it was
** METROHEAP_NO_TEXT    memory was refused, whether or not an event was done;
**                      `*written` is 0
** METROHEAP_NO_REPLY   no event was done yet; `*written` is 0
** METROHEAP_CLOSED     `*written` is 0
*/
int32_t metroheap_last_text_nonnull(metroheap *heap, char *out,
                                    size_t out_length, size_t *written);
static inline int32_t metroheap_last_text(metroheap *heap, char *out,
                                          size_t out_length, size_t *written) {
    char none = 0;
    return metroheap_last_text_nonnull(heap, out_length ? out : &none,
                                       out_length, written);
}

/*
** Copies why a line is no event, as `metroheap live` says it, such as
** `"nwe" is no command`. It asks no machine: any thread may call it at any
** time.
**
** METROHEAP_DONE       the text is in `out`
** METROHEAP_SHORT      `*written` bytes are needed; `out` is as it was
** METROHEAP_BLANK      the line is empty or a comment; `*written` is 0
** METROHEAP_NO_ITEM    the line is an event; `*written` is 0
** METROHEAP_NO_TEXT    memory was refused; `*written` is 0
*/
int32_t metroheap_reason_nonnull(const char *line, size_t line_length,
                                 char *out, size_t out_length,
                                 size_t *written);
static inline int32_t metroheap_reason(const char *line, size_t line_length,
                                       char *out, size_t out_length,
                                       size_t *written) {
    char none = 0;
    return metroheap_reason_nonnull(line_length ? line : "", line_length,
                                    out_length ? out : &none, out_length,
                                    written);
}

/*
** Gives the text of the last reply as a C string, with a zero at its end, for
** which `size` has to have room. `out` may be null if `size` is 0. `*needed` is
** the length of the text without the zero; `needed` may be null. If no text is
** given and `size` is not 0, `out` is the empty string.
**
** The statuses are those of metroheap_last_text.
*/
static inline int32_t metroheap_again(metroheap *heap, char *out, size_t size,
                                      size_t *needed) {
    size_t written = 0;
    int32_t status =
        metroheap_last_text(heap, out, size ? size - 1 : 0, &written);
    if (size) {
        out[status == METROHEAP_DONE ? written : 0] = 0;
    }
    if (needed != NULL) {
        *needed = written;
    }
    return status;
}

/*
** Does the event of a line that ends with a zero, and gives the text of its
** reply as metroheap_again does. `out` may be where the line is.
**
** The statuses are those of metroheap_line.
*/
static inline int32_t metroheap_ask(metroheap *heap, const char *line,
                                    char *out, size_t size, size_t *needed) {
    size_t written = 0;
    int32_t status = metroheap_line(heap, line, strlen(line), NULL, 0, &written);
    if (status == METROHEAP_DONE || status == METROHEAP_SHORT) {
        return metroheap_again(heap, out, size, needed);
    }
    if (size) {
        out[0] = 0;
    }
    if (needed != NULL) {
        *needed = 0;
    }
    return status;
}

/* Events as numbers ------------------------------------------------------ */

/* Kinds of events. The comments name `first`, `second` and `third`. */
enum metroheap_event_kind {
    METROHEAP_EVENT_NEW = 1,     /* slot, references, numbers */
    METROHEAP_EVENT_GET = 2,     /* slot, slot looked through, field */
    METROHEAP_EVENT_PUT = 3,     /* slot looked through, field, slot */
    METROHEAP_EVENT_COPY = 4,    /* slot, slot copied */
    METROHEAP_EVENT_CLEAR = 5,   /* slot */
    METROHEAP_EVENT_READ = 6,    /* slot, index */
    METROHEAP_EVENT_WRITE = 7,   /* slot, index, number */
    METROHEAP_EVENT_SAME = 8,    /* slot, slot */
    METROHEAP_EVENT_SHAPE = 9,   /* slot */
    METROHEAP_EVENT_POST = 10,   /* slot of the board, slot */
    METROHEAP_EVENT_TAKE = 11,   /* slot, slot of the board */
    METROHEAP_EVENT_END = 12,    /* none */
    METROHEAP_EVENT_QUANTUM = 13, /* none; from here on no session asks */
    METROHEAP_EVENT_START = 14,  /* none */
    METROHEAP_EVENT_STAT = 15,   /* none */
    METROHEAP_EVENT_DUMP = 16,   /* none */
    METROHEAP_EVENT_REPORT = 17, /* `third` is the window */
    METROHEAP_EVENT_LEFT = 18    /* none */
};

/*
** An event, of 24 bytes without padding. Numbers that its kind doesn't have
** aren't read. A session of 8 or more is answered
** METROHEAP_REFUSED_TOO_MANY_SESSIONS. The third number of `new`, `get` and
** `put` must be below 2^32; otherwise the numbers are no event.
*/
typedef struct metroheap_event {
    uint32_t kind;
    uint32_t session;
    uint32_t first;
    uint32_t second;
    uint64_t third;
} metroheap_event;

/* Kinds of replies. The comments name their numbers. */
enum metroheap_reply_kind {
    METROHEAP_REPLY_OK = 1,      /* none */
    METROHEAP_REPLY_NUMBER = 2,  /* the number */
    METROHEAP_REPLY_YES = 3,     /* none */
    METROHEAP_REPLY_NO = 4,      /* none */
    METROHEAP_REPLY_SHAPE = 5,   /* references, numbers */
    METROHEAP_REPLY_REFUSED = 6, /* enum metroheap_refusal */
    METROHEAP_REPLY_SPENT = 7,   /* units, enum metroheap_phase */
    METROHEAP_REPLY_STAT = 8,    /* enum metroheap_stat_number */
    METROHEAP_REPLY_DUMP = 9,    /* how many items: metroheap_dump_item */
    METROHEAP_REPLY_REPORT = 10, /* enum metroheap_report_number */
    METROHEAP_REPLY_LEFT = 11    /* quanta */
};

enum metroheap_refusal {
    METROHEAP_REFUSED_BAD_SLOT = 1,
    METROHEAP_REFUSED_NULL = 2,
    METROHEAP_REFUSED_NO_FIELD = 3,
    METROHEAP_REFUSED_TOO_LARGE = 4,
    METROHEAP_REFUSED_HEAP_FULL = 5,
    METROHEAP_REFUSED_ENDED = 6,
    METROHEAP_REFUSED_TOO_MANY_SESSIONS = 7
};

enum metroheap_phase {
    METROHEAP_PHASE_IDLE = 0,
    METROHEAP_PHASE_ROOTS = 1,
    METROHEAP_PHASE_MARK = 2,
    METROHEAP_PHASE_SWEEP = 3,
    METROHEAP_PHASE_DEFRAG = 4
};

/* Places of the numbers of a `stat`. */
enum metroheap_stat_number {
    METROHEAP_STAT_FREE = 0,
    METROHEAP_STAT_LIVE = 1,
    METROHEAP_STAT_OLD = 2,
    METROHEAP_STAT_PHASE = 3,
    METROHEAP_STAT_CYCLE = 4
};

/* Places of the numbers of a `report`. If there is no least or no floor, both
** of its numbers are 0; otherwise the first of them is 1. */
enum metroheap_report_number {
    METROHEAP_REPORT_MUTATOR = 0,
    METROHEAP_REPORT_COLLECTOR = 1,
    METROHEAP_REPORT_QUANTA = 2,
    METROHEAP_REPORT_GREATEST = 3,
    METROHEAP_REPORT_WINDOW = 4,
    METROHEAP_REPORT_HAS_LEAST = 5,
    METROHEAP_REPORT_LEAST = 6,
    METROHEAP_REPORT_HAS_FLOOR = 7,
    METROHEAP_REPORT_FLOOR = 8
};

/* A reply: its kind, and its numbers in order, with zeros after them. Replies
** are compared field by field: bytes of padding follow the kind, as in items
** and deeds. */
typedef struct metroheap_reply {
    uint32_t kind;
    uint64_t numbers[9];
} metroheap_reply;

/*
** Does an event, and puts its reply in `*reply`.
**
** METROHEAP_DONE       the event was done
** METROHEAP_WRONG, METROHEAP_FULL, METROHEAP_NO_MEMORY, METROHEAP_CLOSED,
** METROHEAP_IS_WORLD   nothing was done; `*reply` is as it was
*/
int32_t metroheap_step(metroheap *heap, const metroheap_event *event,
                       metroheap_reply *reply);

/*
** Does an event, as metroheap_step does, and judges the reply that another
** collector gave to it. The reply is right if it is the machine's, in its kind
** and in all nine numbers; numbers that a kind of reply doesn't have are 0. The
** items of a dump are not compared. `given` and `right` are two structs.
**
** A world also takes `heap full` as right if it would make the new object that
** was asked for. Then it doesn't make the object, and all is as if the command
** had never been asked: the last reply stays, and nothing is counted. The same
** goes for a control, which a world can't answer: any struct is right as its
** reply, even one that is no reply at all.
**
** METROHEAP_DONE       `*given` is right; `*right` is the same
** METROHEAP_DIFFERS    `*given` is wrong, and `*right` is the right reply. The
**                      event was done, so the caller may go on
** METROHEAP_WRONG, METROHEAP_FULL, METROHEAP_NO_MEMORY,
** METROHEAP_CLOSED     nothing was done; `*right` is as it was
*/
int32_t metroheap_judge(metroheap *heap, const metroheap_event *event,
                        const metroheap_reply *given, metroheap_reply *right);

/*
** Puts the last reply in `*reply`, also if the event was asked as text.
**
** METROHEAP_DONE
** METROHEAP_NO_REPLY, METROHEAP_CLOSED   `*reply` is as it was
*/
int32_t metroheap_last_reply(metroheap *heap, metroheap_reply *reply);

/* What the last event added to the trace. */
typedef struct metroheap_units {
    uint64_t at;        /* units that the trace had before it */
    uint64_t mutator;   /* units of the mutator, which come first */
    uint64_t collector; /* units that its quantum spent, after them */
    uint64_t ran;       /* 1 if it ran a quantum, else 0 */
    uint64_t phase;     /* enum metroheap_phase, after it */
} metroheap_units;

/*
** Puts in `*units` what the last event added to the trace.
**
** METROHEAP_DONE
** METROHEAP_NO_REPLY, METROHEAP_CLOSED,
** METROHEAP_IS_WORLD   `*units` is as it was
*/
int32_t metroheap_last_units(metroheap *heap, metroheap_units *units);

/* Kinds of items of a dump. The comments name their numbers. */
enum metroheap_item_kind {
    METROHEAP_ITEM_PAGE = 1,     /* page, class, 1 if it is flagged */
    METROHEAP_ITEM_BLOCK = 2,    /* slot, birth, part */
    METROHEAP_ITEM_FORWARDER = 3 /* slot, page and slot that it leads to */
};

/* An item of a dump: a page in use, or a block or forwarder of the page
** before it. */
typedef struct metroheap_item {
    uint32_t kind;
    uint64_t numbers[3];
} metroheap_item;

/*
** Puts an item of the last reply in `*item`. Items are counted from 0, and a
** reply that isn't a dump has no items. So after a dump a loop may ask until
** METROHEAP_NO_ITEM.
**
** METROHEAP_DONE
** METROHEAP_NO_ITEM, METROHEAP_CLOSED   `*item` is as it was
*/
int32_t metroheap_dump_item(metroheap *heap, size_t index,
                            metroheap_item *item);

/* Deeds ------------------------------------------------------------------ */

/*
** Chooses whether events keep their deeds, from the next one on: they do unless
** `tells` is 0. A handle that was just opened keeps none. Each deed that is kept
** takes time and memory.
**
** METROHEAP_DONE, METROHEAP_CLOSED, METROHEAP_IS_WORLD
*/
int32_t metroheap_tell(metroheap *heap, uint32_t tells);

/* Kinds of deeds, as `metroheap steps` tells them. The comments name their
** numbers: a place is 64 * page + slot, `none` is METROHEAP_NOWHERE, and a
** part of an object is its birth and its number in the object. */
enum metroheap_deed_kind {
    METROHEAP_DEED_START = 1,      /* cycle */
    METROHEAP_DEED_ENTER = 2,      /* enum metroheap_phase */
    METROHEAP_DEED_END = 3,        /* none */
    METROHEAP_DEED_ROOT = 4,       /* slot, from, to, 1 if it was shaded */
    METROHEAP_DEED_MARK = 5,       /* place, birth, part */
    METROHEAP_DEED_REFERENCE = 6,  /* index, from, to, 1 if it was shaded */
    METROHEAP_DEED_PASS = 7,       /* page */
    METROHEAP_DEED_EMPTY = 8,      /* place */
    METROHEAP_DEED_KEEP = 9,       /* place, birth, part */
    METROHEAP_DEED_FREE = 10,      /* place, birth, part */
    METROHEAP_DEED_DROP = 11,      /* place of a forwarder, where it led */
    METROHEAP_DEED_FREE_PAGE = 12, /* page */
    METROHEAP_DEED_FLAG = 13,      /* page */
    METROHEAP_DEED_UNFLAG = 14,    /* page */
    METROHEAP_DEED_STAY = 15,      /* place */
    METROHEAP_DEED_MOVE = 16,      /* place, to, birth, part, class */
    METROHEAP_DEED_FORWARD = 17,   /* none */
    METROHEAP_DEED_SHADE = 18,     /* place */
    METROHEAP_DEED_MAKE = 19       /* place, birth, part, class, references, numbers, enum metroheap_tier */
};
#define METROHEAP_NOWHERE UINT64_MAX

/* Where a part of a new object was placed. */
enum metroheap_tier {
    METROHEAP_TIER_DENSE = 0, /* in a dense page of its class */
    METROHEAP_TIER_FRESH = 1, /* in a free page */
    METROHEAP_TIER_SPARSE = 2 /* in a sparse page of its class */
};

/* A deed: its kind, its units, and its numbers with zeros after them. */
typedef struct metroheap_deed {
    uint32_t kind;
    uint64_t units;
    uint64_t numbers[7];
} metroheap_deed;

/*
** Puts a deed of the last event in `*deed`. Deeds are counted from 0: those of
** its command, and then those of its quantum. So a loop may ask until
** METROHEAP_NO_ITEM.
**
** METROHEAP_DONE
** METROHEAP_NO_ITEM    it has no such deed
** METROHEAP_NO_DEEDS   they weren't kept, or memory was refused for one
** METROHEAP_CLOSED     in all three `*deed` is as it was
*/
int32_t metroheap_deed_item(metroheap *heap, size_t index,
                            metroheap_deed *deed);

/* What is read without an event ------------------------------------------ */

/*
** Put in `*reply` what `* stat`, `* left` and `* report WINDOW` would answer
** now. They are no events, so they don't count as any, and the last reply
** stays.
**
** METROHEAP_DONE
** METROHEAP_CLOSED, METROHEAP_IS_WORLD   `*reply` is as it was
*/
int32_t metroheap_see_stat(metroheap *heap, metroheap_reply *reply);
int32_t metroheap_see_left(metroheap *heap, metroheap_reply *reply);
int32_t metroheap_see_report(metroheap *heap, uint64_t window,
                             metroheap_reply *reply);

/* Memory ----------------------------------------------------------------- */

/*
** Only the trace of a machine grows with its events: it takes at most 32 bytes
** an event, and up to twice that while it is reallocated. Reports of up to 512
** windows take 32 KB more. A machine that runs for a long time, or that must not
** ask for memory while it runs, makes room for a number of events at its start,
** and forgets its trace before that many more were done.
**
** Makes room for the next `events` events. Then memory is refused for none of
** them, unless it is a dump, and for none of as many events after each time that
** the trace is forgotten. This is proved, whatever metroheap_tell asks for in
** between; that no memory is even asked for is tested. Texts of replies, and
** deeds that are kept, ask for memory of their own: if it is refused the event
** is done all the same, without a text or without deeds.
**
** METROHEAP_DONE
** METROHEAP_NO_MEMORY, METROHEAP_CLOSED,
** METROHEAP_IS_WORLD   the machine is as it was
*/
int32_t metroheap_reserve(metroheap *heap, size_t events);

/*
** Forgets the trace. From then on reports count from here: their units, their
** quanta and their windows. So does `at` of metroheap_last_units from the next
** event on. Reports still keep what the configuration promises: a floor under the
** mutator's share of each window, and no quantum longer than configured.
** Everything else goes on as if nothing had been forgotten: all other replies,
** the heap, and the number of events that were done. No memory is freed; the
** memory of the trace is room for events to come.
**
** METROHEAP_DONE
** METROHEAP_CLOSED, METROHEAP_IS_WORLD   nothing was done
*/
int32_t metroheap_forget(metroheap *heap);

/* Shorthands, which need no library -------------------------------------- */

/* Makes a command of a session, of the kinds 1 to 12. */
static inline metroheap_event metroheap_command(uint32_t kind, uint32_t session,
                                                uint32_t first, uint32_t second,
                                                uint64_t third) {
    metroheap_event event;
    event.kind = kind;
    event.session = session;
    event.first = first;
    event.second = second;
    event.third = third;
    return event;
}

/* Makes a control, of the kinds 13 to 18. The window is that of a report. */
static inline metroheap_event metroheap_control(uint32_t kind, uint64_t window) {
    return metroheap_command(kind, 0, 0, 0, window);
}

/* Does a `* dump`, whose items metroheap_dump_item gives then. */
static inline int32_t metroheap_dump(metroheap *heap, metroheap_reply *reply) {
    metroheap_event event = metroheap_control(METROHEAP_EVENT_DUMP, 0);
    return metroheap_step(heap, &event, reply);
}

/* Does a `* report` of a window. */
static inline int32_t metroheap_report(metroheap *heap, uint64_t window,
                                       metroheap_reply *reply) {
    metroheap_event event = metroheap_control(METROHEAP_EVENT_REPORT, window);
    return metroheap_step(heap, &event, reply);
}

#ifdef __cplusplus
}
#endif
#endif
