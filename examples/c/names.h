/* Events and replies by names, as histories write them: for what an example
** prints. What has no name is written as its number. */
#ifndef NAMES_H
#define NAMES_H

#include "metroheap.h"

#include <inttypes.h>
#include <stdio.h>

static inline const char *phase_name(uint64_t phase) {
    static const char *const names[] = {"idle", "roots", "mark", "sweep", "defrag"};
    return phase < sizeof names / sizeof names[0] ? names[phase] : "?";
}

static inline const char *refusal_name(uint64_t refusal) {
    static const char *const names[] = {"?",         "bad slot",  "null",  "no field",
                                        "too large", "heap full", "ended", "too many sessions"};
    return refusal < sizeof names / sizeof names[0] ? names[refusal] : "?";
}

/* Writes an event, without an end of line. */
static inline void prints_event(FILE *to, const metroheap_event *event) {
    static const struct {
        const char *word;
        int numbers;
    } forms[] = {{"?", 0},     {"new", 3},  {"get", 3},   {"put", 3},    {"copy", 2}, {"clear", 1}, {"read", 2},
                 {"write", 3}, {"same", 2}, {"shape", 1}, {"post", 2},   {"take", 2}, {"end", 0},   {"quantum", 0},
                 {"start", 0}, {"stat", 0}, {"dump", 0},  {"report", 1}, {"left", 0}};
    const uint64_t numbers[] = {event->first, event->second, event->third};
    if (event->kind < METROHEAP_EVENT_NEW || event->kind > METROHEAP_EVENT_LEFT) {
        fprintf(to, "an event of kind %" PRIu32, event->kind);
    } else if (event->kind >= METROHEAP_EVENT_QUANTUM) {
        fprintf(to, "* %s", forms[event->kind].word);
        if (event->kind == METROHEAP_EVENT_REPORT) {
            fprintf(to, " %" PRIu64, event->third);
        }
    } else {
        fprintf(to, "s%" PRIu32 " %s", event->session, forms[event->kind].word);
        for (int i = 0; i < forms[event->kind].numbers; i++) {
            fprintf(to, " %" PRIu64, numbers[i]);
        }
    }
}

/* Writes the numbers of a report. */
static inline void prints_report_numbers(FILE *to, const uint64_t *n) {
    fprintf(to, "mutator %" PRIu64 " collector %" PRIu64 " quanta %" PRIu64 " greatest %" PRIu64 " window %" PRIu64,
            n[METROHEAP_REPORT_MUTATOR], n[METROHEAP_REPORT_COLLECTOR], n[METROHEAP_REPORT_QUANTA],
            n[METROHEAP_REPORT_GREATEST], n[METROHEAP_REPORT_WINDOW]);
    if (n[METROHEAP_REPORT_HAS_LEAST]) {
        fprintf(to, " least %" PRIu64, n[METROHEAP_REPORT_LEAST]);
    } else {
        fprintf(to, " least none");
    }
    if (n[METROHEAP_REPORT_HAS_FLOOR]) {
        fprintf(to, " floor %" PRIu64, n[METROHEAP_REPORT_FLOOR]);
    } else {
        fprintf(to, " floor none");
    }
}

/* Writes a reply, without an end of line. Of a dump it is how many items it has. */
static inline void prints_reply(FILE *to, const metroheap_reply *reply) {
    const uint64_t *n = reply->numbers;
    switch (reply->kind) {
    case METROHEAP_REPLY_OK:
        fprintf(to, "ok");
        break;
    case METROHEAP_REPLY_NUMBER:
        fprintf(to, "number %" PRIu64, n[0]);
        break;
    case METROHEAP_REPLY_YES:
        fprintf(to, "yes");
        break;
    case METROHEAP_REPLY_NO:
        fprintf(to, "no");
        break;
    case METROHEAP_REPLY_SHAPE:
        fprintf(to, "shape %" PRIu64 " %" PRIu64, n[0], n[1]);
        break;
    case METROHEAP_REPLY_REFUSED:
        fprintf(to, "refused %" PRIu64 " %s", n[0], refusal_name(n[0]));
        break;
    case METROHEAP_REPLY_SPENT:
        fprintf(to, "spent %" PRIu64 " phase %s", n[0], phase_name(n[1]));
        break;
    case METROHEAP_REPLY_STAT:
        fprintf(to, "free %" PRIu64 " live %" PRIu64 " old %" PRIu64 " phase %s cycle %" PRIu64, n[METROHEAP_STAT_FREE],
                n[METROHEAP_STAT_LIVE], n[METROHEAP_STAT_OLD], phase_name(n[METROHEAP_STAT_PHASE]),
                n[METROHEAP_STAT_CYCLE]);
        break;
    case METROHEAP_REPLY_DUMP:
        fprintf(to, "a dump of %" PRIu64 " items", n[0]);
        break;
    case METROHEAP_REPLY_REPORT:
        prints_report_numbers(to, n);
        break;
    case METROHEAP_REPLY_LEFT:
        fprintf(to, "left %" PRIu64, n[0]);
        break;
    default:
        fprintf(to, "a reply of kind %" PRIu32, reply->kind);
    }
}

#endif
