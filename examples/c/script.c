/* Runs a script as `metroheap run` does, line by line through the library:
**
**     script < SCRIPT
**
** `run` stops after 1,000,000 events, and this doesn't. A bad line is named after
** the replies to the lines before it. Why it is no event goes to standard error.
** Exits 1 then, and 2 if anything else stops it.
*/
#include "metroheap.h"

#include <stdio.h>
#include <stdlib.h>
#include <string.h>

/* Bytes in a buffer that grows. */
struct text {
    char *bytes;
    size_t length, room;
};

static void stops(const char *why) {
    fprintf(stderr, "script: %s\n", why);
    exit(2);
}

static void makes_room(struct text *text, size_t room) {
    if (room > text->room) {
        text->bytes = realloc(text->bytes, room);
        if (text->bytes == NULL) {
            stops(metroheap_status_text(METROHEAP_NO_MEMORY));
        }
        text->room = room;
    }
}

/* Reads a line with its newline, which the last one may lack, and puts a zero
** after it. A comment may have any bytes, so its length counts. */
static int reads_line(struct text *line) {
    int byte;
    line->length = 0;
    while ((byte = getchar()) != EOF) {
        if (line->length + 2 > line->room) {
            makes_room(line, 2 * line->room + 64);
        }
        line->bytes[line->length++] = (char)byte;
        line->bytes[line->length] = 0;
        if (byte == '\n') {
            break;
        }
    }
    return line->length > 0;
}

/* Opens the machine of a line `config ..`, if it is one. The line is written
** once more and compared, since sscanf takes spaces and zeros that the grammar
** doesn't. */
static int opens(metroheap *heap, const char *line) {
    unsigned pages, quantum, trigger, every;
    char again[64];
    if (sscanf(line, "config %7u %7u %7u %7u", &pages, &quantum, &trigger, &every) != 4) {
        return 0;
    }
    sprintf(again, "config %u %u %u %u\n", pages, quantum, trigger, every);
    if (strcmp(line, again) != 0) {
        return 0;
    }
    int32_t status = metroheap_open(heap, pages, quantum, trigger, every, 2);
    if (status == METROHEAP_NO_MEMORY) {
        stops(metroheap_status_text(status));
    }
    return status == METROHEAP_DONE;
}

/* Does a line. If the reply is longer than its buffer, the event is done all
** the same, so the reply is asked for again, and not the line. */
static int32_t answers(metroheap *heap, const struct text *line, struct text *reply) {
    int32_t status = metroheap_line(heap, line->bytes, line->length, reply->bytes, reply->room, &reply->length);
    if (status == METROHEAP_SHORT) {
        makes_room(reply, reply->length);
        status = metroheap_last_text(heap, reply->bytes, reply->room, &reply->length);
    }
    return status;
}

/* Says why a line is no event. */
static void explains(const struct text *line, unsigned long number, struct text *why) {
    int32_t status = metroheap_reason(line->bytes, line->length, why->bytes, why->room, &why->length);
    if (status == METROHEAP_SHORT) {
        makes_room(why, why->length);
        status = metroheap_reason(line->bytes, line->length, why->bytes, why->room, &why->length);
    }
    if (status == METROHEAP_DONE) {
        fprintf(stderr, "script: line %lu: %.*s\n", number, (int)why->length, why->bytes);
    }
}

/* Does a line after the configuration. Whether it is an event or blank. */
static int does(metroheap *heap, const struct text *line, struct text *reply) {
    int32_t status = answers(heap, line, reply);
    if (status == METROHEAP_DONE) {
        fwrite(reply->bytes, 1, reply->length, stdout);
        putchar('\n');
    } else if (status != METROHEAP_BLANK && status != METROHEAP_WRONG) {
        stops(metroheap_status_text(status));
    }
    return status != METROHEAP_WRONG;
}

/* Runs the script. Whether all its lines are good. */
static int runs(metroheap *heap, struct text *line, struct text *reply) {
    unsigned long number;
    int is_open = 0;
    for (number = 1; reads_line(line); number++) {
        int is_whole = line->bytes[line->length - 1] == '\n';
        int is_blank = line->bytes[0] == '\n' || line->bytes[0] == '#';
        int is_good = is_whole && (is_blank || (is_open ? does(heap, line, reply) : opens(heap, line->bytes)));
        if (!is_good) {
            printf("refused 10 line %lu\n", number);
            if (is_open && is_whole) {
                explains(line, number, reply);
            }
            return 0;
        }
        is_open = is_open || !is_blank;
    }
    if (!is_open) {
        printf("refused 10 line %lu\n", number);
    }
    return is_open;
}

int main(void) {
    metroheap heap = METROHEAP_INIT;
    struct text line = {NULL, 0, 0}, reply = {NULL, 0, 0};
    if (metroheap_version() != METROHEAP_VERSION_NUMBER) {
        stops("the header is not that of the library");
    }
    int is_good = runs(&heap, &line, &reply);
    metroheap_close(&heap);
    free(line.bytes);
    free(reply.bytes);
    if (fflush(stdout) != 0) {
        stops("write failed");
    }
    return is_good ? 0 : 1;
}
