/* Reads scripts and answers them, for the adapters in C. A line `config` begins anew, so that one process can answer
** many scripts. It trusts the scripts to be in the grammar of the manual.
*/
#define _POSIX_C_SOURCE 200809L
#include "front.h"

#include <inttypes.h>
#include <stdio.h>
#include <stdlib.h>
#include <string.h>

enum { MOST_FIELDS = 216000, NAME = 17 };
static const char BLANKS[] = " \n";

/* Of each command what its words are: a slot of the session (s), one of them that has to name an object (o), a slot of
** the board (b), a reference (r) or a number (n) of that object, or anything else (-).
*/
enum word { NEW, GET, PUT, READ, WRITE, COPY, CLEAR, SAME, SHAPE, POST, TAKE, END };
static const struct { const char *word, *form; } FORMS[] = {
    {"new", "s--"}, {"get", "sor"}, {"put", "ors"}, {"read", "on"}, {"write", "on-"}, {"copy", "ss"},
    {"clear", "s"}, {"same", "ss"}, {"shape", "o"}, {"post", "bs"}, {"take", "sb"}, {"end", ""},
};

/* The words of the command line. */
static char **words;

/* What is forgotten at a line `config`. */
static struct {
    char names[SESSIONS][NAME];
    int known;
    bool has_ended[SESSIONS];
    uint64_t cycles_before, within;
} run;

static void fail(const char *what)
{
    fprintf(stderr, "adapter: %s\n", what);
    exit(3);
}

bool is_asked(const char *word)
{
    char **at = words;
    while (*at != NULL && strcmp(*at, word) != 0)
        at++;
    return *at != NULL;
}

unsigned long number_asked(unsigned long otherwise)
{
    char **at = words;
    while (*at != NULL && strspn(*at, "0123456789") == 0)
        at++;
    return *at != NULL ? strtoul(*at, NULL, 10) : otherwise;
}

const char *path_asked(void)
{
    char **at = words;
    while (*at != NULL && strchr(*at, '/') == NULL)
        at++;
    return *at;
}

/* Turns the slots of a command into roots. Says no if there is no such slot. */
static bool find_roots(const char *form, int session, uint64_t *operands)
{
    for (int i = 0; form[i] != '\0'; i++) {
        if (strchr("sob", form[i]) == NULL)
            continue;
        if (operands[i] >= SLOTS)
            return false;
        operands[i] += (uint64_t)(form[i] == 'b' ? SESSIONS : session) * SLOTS;
    }
    return true;
}

/* The first reason to refuse a command that looks into an object or says whose slots it means, or NULL. */
static const char *refusal(const char *form, int session, uint64_t *operands)
{
    uint64_t references, numbers;
    if (session == SESSIONS)
        return "refused 7 too many sessions";
    if (run.has_ended[session])
        return "refused 6 ended";
    if (!find_roots(form, session, operands))
        return "refused 1 bad slot";
    const char *object = strchr(form, 'o'), *reference = strchr(form, 'r'), *number = strchr(form, 'n');
    if (object == NULL)
        return NULL;
    if (!heap_shape((int)operands[object - form], &references, &numbers))
        return "refused 2 null";
    if (reference != NULL && operands[reference - form] >= references)
        return "refused 3 no field";
    if (number != NULL && operands[number - form] >= numbers)
        return "refused 3 no field";
    return NULL;
}

static const char *make(int root, uint64_t references, uint64_t numbers)
{
    if (references + numbers > MOST_FIELDS)
        return "refused 4 too large";
    return heap_make(root, references, numbers) ? "ok" : "refused 5 heap full";
}

static void end(int session)
{
    for (int slot = 0; slot < SLOTS; slot++)
        heap_clear(session * SLOTS + slot);
    run.has_ended[session] = true;
}

/* Does a command that is not refused, but for a new object, and returns its reply. */
static const char *perform(enum word word, int session, const uint64_t *operands)
{
    static char reply[64];
    const uint64_t *o = operands;
    uint64_t references, numbers;
    int first = (int)o[0], second = (int)o[1], third = (int)o[2];
    switch (word) {
    case NEW:
        return make(first, o[1], o[2]);
    case GET:
        heap_get(first, second, o[2]);
        break;
    case PUT:
        heap_put(first, o[1], third);
        break;
    case READ:
        snprintf(reply, sizeof reply, "number %" PRIu64, heap_read(first, o[1]));
        return reply;
    case WRITE:
        heap_write(first, o[1], o[2]);
        break;
    case COPY: case POST: case TAKE:
        heap_copy(first, second);
        break;
    case CLEAR:
        heap_clear(first);
        break;
    case SAME:
        return heap_same(first, second) ? "yes" : "no";
    case SHAPE:
        heap_shape(first, &references, &numbers);
        snprintf(reply, sizeof reply, "shape %" PRIu64 " %" PRIu64, references, numbers);
        return reply;
    case END:
        end(session);
        break;
    }
    return "ok";
}

/* The number of the session with a name. They are numbered as they are first seen; all after the eighth are 8. */
static int session_of(const char *name)
{
    int session = 0;
    while (session < run.known && strcmp(run.names[session], name) != 0)
        session++;
    if (session == run.known && session < SESSIONS)
        strcpy(run.names[run.known++], name);
    return session;
}

static const char *command(const char *name, const char *text, uint64_t *operands)
{
    int word = 0, session = session_of(name);
    while (strcmp(FORMS[word].word, text) != 0)
        if (++word > END)
            fail("no command");
    if (heap_progress().is_under_way)
        run.within++;
    const char *why = refusal(FORMS[word].form, session, operands);
    return why != NULL ? why : perform((enum word)word, session, operands);
}

static void control(const char *word)
{
    if (strcmp(word, "quantum") == 0)
        heap_quantum();
    else
        heap_start();
    struct progress progress = heap_progress();
    printf("cycles %" PRIu64, progress.cycles - run.cycles_before);
    if (progress.is_stepwise)
        printf(" within %" PRIu64 " phase %s", run.within, progress.is_under_way ? "collecting" : "idle");
    if (progress.is_moving)
        printf(" moves yes");
    putchar('\n');
}

static void begin_anew(void)
{
    for (int root = 0; root < ROOTS; root++)
        heap_clear(root);
    heap_begin();
    memset(&run, 0, sizeof run);
    run.cycles_before = heap_progress().cycles;
}

int main(int argc, char **argv)
{
    char *line = NULL;
    size_t room = 0;
    words = argc > 0 ? argv + 1 : argv;
    heap_open();
    setvbuf(stdout, NULL, _IOLBF, 0);
    while (getline(&line, &room, stdin) > 0) {
        uint64_t o[3] = {0};
        const char *who = strtok(line, BLANKS), *word = strtok(NULL, BLANKS), *number;
        if (who == NULL || word == NULL || strlen(who) >= NAME)
            fail("no event");
        for (int i = 0; i < 3 && (number = strtok(NULL, BLANKS)) != NULL; i++)
            o[i] = strtoull(number, NULL, 10);
        if (strcmp(who, "config") == 0) {
            begin_anew();
        } else if (strcmp(who, "*") == 0) {
            control(word);
        } else {
            puts(command(who, word, o));
            heap_step();
        }
    }
    free(line);
    heap_close();
    return 0;
}
