/* A semispace copier that answers scripts: a toy to begin from with a collector of your own.
**
**     cc -O2 -o semispace semispace.c && ./semispace < SCRIPT
**
** It answers each event by one line, as soon as it has read the event's line. So it speaks both protocols of the judge,
** `run` and `live`. Its sessions get what every correct collector gives them; what controls are answered is its own. It
** trusts the script to be in the grammar of the manual, as each script of the judge is.
*/
#define _POSIX_C_SOURCE 200809L
#include <inttypes.h>
#include <stdbool.h>
#include <stdio.h>
#include <stdlib.h>
#include <string.h>

enum { SESSIONS = 8, SLOTS = 16, ROOTS = SESSIONS * SLOTS + SLOTS, PAGE_WORDS = 256, MOST_FIELDS = 216000, HEADER = 2 };

/* An object is the number of its references, the number of its numbers, and then its fields. Its address is the index
** of its first word, and 0 is null. If that word has the bit MOVED, the object has moved to the address beside the bit.
*/
enum kind { REFERENCE, NUMBER };
static const uint64_t MOVED = (uint64_t)1 << 63;

/* A space of words, and the roots that lead into it: the slots of the sessions, and then the board. */
struct heap {
    uint64_t *space, *other, words, top, roots[ROOTS];
    char names[SESSIONS][17];
    int sessions;
    bool ended[SESSIONS];
};

/* The numbers of the reasons to refuse a command; 0 if it isn't refused. */
enum refusal { NONE, BAD_SLOT, NO_OBJECT, NO_FIELD, TOO_LARGE, HEAP_FULL, ENDED, TOO_MANY };
static const char *const REASONS[] = {
    "", "bad slot", "null", "no field", "too large", "heap full", "ended", "too many sessions"};

static void fail(const char *what)
{
    fprintf(stderr, "semispace: %s\n", what);
    exit(3);
}

static void open_heap(struct heap *heap, uint64_t pages)
{
    heap->top = 1;
    heap->words = 1 + pages * PAGE_WORDS;
    heap->space = calloc(heap->words, sizeof *heap->space);
    heap->other = calloc(heap->words, sizeof *heap->other);
    if (heap->space == NULL || heap->other == NULL)
        fail("no memory");
}

/* Where the object at an address of the other space is now. */
static uint64_t copied(struct heap *heap, uint64_t address)
{
    uint64_t *from = heap->other + address;
    if (address == 0)
        return 0;
    if ((from[0] & MOVED) == 0) {
        uint64_t size = HEADER + from[0] + from[1];
        memcpy(heap->space + heap->top, from, size * sizeof *from);
        from[0] = MOVED | heap->top;
        heap->top += size;
    }
    return from[0] & ~MOVED;
}

/* Copies what the roots reach into the other space, breadth first (Cheney). Returns how many words that were. */
static uint64_t collect(struct heap *heap)
{
    uint64_t *old = heap->space, old_top = heap->top;
    heap->space = heap->other;
    heap->other = old;
    heap->top = 1;
    for (int root = 0; root < ROOTS; root++)
        heap->roots[root] = copied(heap, heap->roots[root]);
    for (uint64_t scan = 1; scan < heap->top;) {
        uint64_t *object = heap->space + scan;
        for (uint64_t field = HEADER; field < HEADER + object[0]; field++)
            object[field] = copied(heap, object[field]);
        scan += HEADER + object[0] + object[1];
    }
    /* The next objects find zeros above `top`, here and after the next collection. */
    memset(old, 0, old_top * sizeof *old);
    return heap->top - 1;
}

/* Makes an object that the root names. Its fields are 0 already, since nothing was written above `top`. */
static enum refusal make(struct heap *heap, uint64_t root, uint64_t references, uint64_t numbers)
{
    uint64_t size = HEADER + references + numbers;
    if (references + numbers > MOST_FIELDS)
        return TOO_LARGE;
    if (heap->words - heap->top < size)
        collect(heap);
    if (heap->words - heap->top < size)
        return HEAP_FULL;
    heap->roots[root] = heap->top;
    heap->space[heap->top] = references;
    heap->space[heap->top + 1] = numbers;
    heap->top += size;
    return NONE;
}

/* Finds a reference or a number of the object that a root names. */
static enum refusal find(struct heap *heap, uint64_t root, enum kind kind, uint64_t index, uint64_t **field)
{
    uint64_t *object = heap->space + heap->roots[root];
    if (heap->roots[root] == 0)
        return NO_OBJECT;
    if (index >= object[kind])
        return NO_FIELD;
    *field = object + HEADER + (kind == NUMBER ? object[0] : 0) + index;
    return NONE;
}

/* Of each command, which number is a slot of the session (s), a slot of the board (b), or another number (-). */
enum word { NEW, GET, PUT, READ, WRITE, COPY, CLEAR, SAME, SHAPE, POST, TAKE, END };
static const struct { const char *word, *form; } FORMS[] = {
    {"new", "s--"}, {"get", "ss-"}, {"put", "s-s"}, {"read", "s-"}, {"write", "s--"}, {"copy", "ss"},
    {"clear", "s"}, {"same", "ss"}, {"shape", "s"}, {"post", "bs"}, {"take", "sb"}, {"end", ""},
};

/* Turns the slots among the numbers of a command into roots. */
static enum refusal find_roots(const char *form, uint64_t session, uint64_t *numbers)
{
    for (int i = 0; form[i] != '\0'; i++) {
        if (form[i] == '-')
            continue;
        if (numbers[i] >= SLOTS)
            return BAD_SLOT;
        numbers[i] += (form[i] == 's' ? session : SESSIONS) * SLOTS;
    }
    return NONE;
}

/* Does a command whose slots are roots. Writes its reply, if it isn't refused. */
static enum refusal perform(struct heap *heap, uint64_t session, enum word word, const uint64_t *n, char *reply)
{
    uint64_t *roots = heap->roots, *field = NULL;
    enum refusal refusal = NONE;
    strcpy(reply, "ok");
    switch (word) {
    case NEW:
        refusal = make(heap, n[0], n[1], n[2]);
        break;
    case GET:
        if ((refusal = find(heap, n[1], REFERENCE, n[2], &field)) == NONE)
            roots[n[0]] = *field;
        break;
    case PUT:
        if ((refusal = find(heap, n[0], REFERENCE, n[1], &field)) == NONE)
            *field = roots[n[2]];
        break;
    case READ:
        if ((refusal = find(heap, n[0], NUMBER, n[1], &field)) == NONE)
            sprintf(reply, "number %" PRIu64, *field);
        break;
    case WRITE:
        if ((refusal = find(heap, n[0], NUMBER, n[1], &field)) == NONE)
            *field = n[2];
        break;
    case COPY: case POST: case TAKE:
        roots[n[0]] = roots[n[1]];
        break;
    case CLEAR:
        roots[n[0]] = 0;
        break;
    case SAME:
        strcpy(reply, roots[n[0]] == roots[n[1]] ? "yes" : "no");
        break;
    case SHAPE:
        field = heap->space + roots[n[0]];
        refusal = roots[n[0]] == 0 ? NO_OBJECT : NONE;
        sprintf(reply, "shape %" PRIu64 " %" PRIu64, field[0], field[1]);
        break;
    case END:
        memset(roots + session * SLOTS, 0, SLOTS * sizeof *roots);
        heap->ended[session] = true;
        break;
    }
    return refusal;
}

/* Does a command. It is refused by the first reason that holds, in the order 7, 6, 1, 2, 3, 4, 5. */
static enum refusal command(struct heap *heap, uint64_t session, const char *text, uint64_t *numbers, char *reply)
{
    int word = 0;
    while (strcmp(FORMS[word].word, text) != 0)
        if (++word > END)
            fail("no command");
    if (session >= SESSIONS)
        return TOO_MANY;
    if (heap->ended[session])
        return ENDED;
    enum refusal refusal = find_roots(FORMS[word].form, session, numbers);
    return refusal != NONE ? refusal : perform(heap, session, word, numbers, reply);
}

/* The number of the session with a name. They are numbered as they are first seen; all after the eighth are 8. */
static uint64_t session_of(struct heap *heap, const char *name)
{
    for (int session = 0; session < heap->sessions; session++)
        if (strcmp(heap->names[session], name) == 0)
            return session;
    if (heap->sessions == SESSIONS)
        return SESSIONS;
    strcpy(heap->names[heap->sessions], name);
    return heap->sessions++;
}

/* Answers a control, where any line will do. Here a quantum is a whole cycle. */
static void control(struct heap *heap, const char *word)
{
    if (strcmp(word, "quantum") == 0)
        printf("spent %" PRIu64 " phase idle moves yes\n", collect(heap));
    else if (strcmp(word, "stat") == 0)
        printf("used %" PRIu64 " of %" PRIu64 "\n", heap->top - 1, heap->words - 1);
    else
        puts("ok");
}

int main(void)
{
    struct heap heap = {0};
    char *line = NULL;
    size_t room = 0;
    setvbuf(stdout, NULL, _IOLBF, 0);
    while (getline(&line, &room, stdin) > 0) {
        char who[17], word[17], reply[64];
        uint64_t n[3] = {0};
        if (line[0] == '#' || line[0] == '\n')
            continue;
        if (sscanf(line, "%16s %16s %" SCNu64 " %" SCNu64 " %" SCNu64, who, word, n, n + 1, n + 2) < 2)
            fail("no event");
        if (heap.space == NULL) {
            open_heap(&heap, strtoull(word, NULL, 10));
        } else if (strcmp(who, "*") == 0) {
            control(&heap, word);
        } else {
            enum refusal refusal = command(&heap, session_of(&heap, who), word, n, reply);
            if (refusal == NONE)
                puts(reply);
            else
                printf("refused %d %s\n", (int)refusal, REASONS[refusal]);
        }
    }
    free(line);
    free(heap.space);
    free(heap.other);
    return 0;
}
