/* Each call with each of its statuses but METROHEAP_FULL, for which no time is
** long enough, and each request for memory refused in turn: a call that is
** refused leaves the machine as it was, and answers the same when it is tried
** again. What a handle holds is freed when it is closed or opened again. Link it
** with -Wl,--wrap=malloc,--wrap=realloc,--wrap=free. Prints nothing but its last
** line; at a fault it names the line, and exits 1.
*/
#include "metroheap.h"

#include <stdio.h>
#include <stdlib.h>
#include <string.h>

/* Memory ----------------------------------------------------------------- */

void *__real_malloc(size_t size);
void *__real_realloc(void *block, size_t size);
void __real_free(void *block);
void *__wrap_malloc(size_t size);
void *__wrap_realloc(void *block, size_t size);
void __wrap_free(void *block);

/* How many requests are granted before one is refused; none is refused if it is
** negative. After it all others are refused too, or none. */
static long granted = -1;
static int refuses_rest;

/* How many requests there were, and how many were refused. */
static long requests, refusals;

/* How many blocks are held: asked for, and not freed. */
static long held;

static int is_refused(size_t size) {
    requests++;
    /* Nobody has so much, and a sanitizer ends a program that asks for it. */
    if (size > SIZE_MAX / 4) {
        refusals++;
        return 1;
    }
    if (granted != 0) {
        granted -= granted > 0;
        return 0;
    }
    granted = refuses_rest ? 0 : -1;
    refusals++;
    return 1;
}

void *__wrap_malloc(size_t size) {
    void *block = is_refused(size) ? NULL : __real_malloc(size);
    held += block != NULL;
    return block;
}

void *__wrap_realloc(void *block, size_t size) {
    void *grown = is_refused(size) ? NULL : __real_realloc(block, size);
    held += block == NULL && grown != NULL;
    return grown;
}

void __wrap_free(void *block) {
    held -= block != NULL;
    __real_free(block);
}

/* What is tried ---------------------------------------------------------- */

#define CHECK(condition) \
    do { \
        if (!(condition)) { \
            fprintf(stderr, "statuses: line %d: %s\n", __LINE__, #condition); \
            exit(1); \
        } \
    } while (0)

static metroheap heap = METROHEAP_INIT;
static metroheap_event event;
static metroheap_reply reply;
static metroheap_item item;
static metroheap_units units;
static metroheap_deed deed;
static char out[256];
static size_t written;

/* Asks a line with room enough, and with a zero after the text. */
static int32_t ask(const char *line) {
    return metroheap_ask(&heap, line, out, sizeof out, &written);
}

static int answers(const char *line, const char *text) {
    return ask(line) == METROHEAP_DONE && strcmp(out, text) == 0 && written == strlen(text);
}

/* Asks a line with so much room, and with no zero. */
static int32_t line(const char *text, size_t room) {
    return metroheap_line(&heap, text, strlen(text), out, room, &written);
}

static int is_out(const char *text) {
    return written == strlen(text) && memcmp(out, text, written) == 0;
}

static int32_t step(metroheap *which, metroheap_event asked) {
    return metroheap_step(which, &asked, &reply);
}

static int32_t step_control(metroheap *which, uint32_t kind) {
    return step(which, metroheap_control(kind, 100));
}

/* Judges a reply to an event. What is right is in `reply`. */
static int32_t judge(metroheap_event asked, metroheap_reply given) {
    return metroheap_judge(&heap, &asked, &given, &reply);
}

static int is_same(const metroheap_reply *left, const metroheap_reply *right) {
    return left->kind == right->kind && memcmp(left->numbers, right->numbers, sizeof left->numbers) == 0;
}

static metroheap_reply reply_of(uint32_t kind, uint64_t number) {
    metroheap_reply made = {kind, {number}};
    return made;
}

static metroheap_reply refused(uint64_t refusal) {
    return reply_of(METROHEAP_REPLY_REFUSED, refusal);
}

/* What can be seen of a machine without an event. */
struct sight {
    int32_t statuses[5];
    metroheap_reply last, stat, left, report;
    metroheap_units units;
};

static struct sight sees(metroheap *which) {
    struct sight sight;
    memset(&sight, 0, sizeof sight);
    sight.statuses[0] = metroheap_last_reply(which, &sight.last);
    sight.statuses[1] = metroheap_see_stat(which, &sight.stat);
    sight.statuses[2] = metroheap_see_left(which, &sight.left);
    sight.statuses[3] = metroheap_see_report(which, 77, &sight.report);
    sight.statuses[4] = metroheap_last_units(which, &sight.units);
    return sight;
}

static int is_as_before(const struct sight *before, metroheap *which) {
    struct sight now = sees(which);
    return memcmp(before->statuses, now.statuses, sizeof now.statuses) == 0 && is_same(&before->last, &now.last) &&
           is_same(&before->stat, &now.stat) && is_same(&before->left, &now.left) &&
           is_same(&before->report, &now.report) && memcmp(&before->units, &now.units, sizeof now.units) == 0;
}

/* Statuses --------------------------------------------------------------- */

static void versions(void) {
    CHECK(metroheap_version() == METROHEAP_VERSION_NUMBER);
    CHECK(sizeof(metroheap_event) == 24);
    for (int32_t status = METROHEAP_DONE; status <= METROHEAP_IS_WORLD; status++) {
        CHECK(strlen(metroheap_status_text(status)) > 3);
        for (int32_t other = METROHEAP_DONE; other < status; other++) {
            CHECK(strcmp(metroheap_status_text(status), metroheap_status_text(other)) != 0);
        }
    }
    CHECK(strcmp(metroheap_status_text(METROHEAP_CLOSED), "the handle is closed") == 0);
    CHECK(strcmp(metroheap_status_text(-1), "no status") == 0 && strcmp(metroheap_status_text(14), "no status") == 0);
}

static void closed_handles(void) {
    reply = reply_of(77, 7);
    written = 7;
    CHECK(line("a end", sizeof out) == METROHEAP_CLOSED && written == 0);
    written = 7;
    CHECK(metroheap_last_text(&heap, out, sizeof out, &written) == METROHEAP_CLOSED && written == 0);
    strcpy(out, "text");
    CHECK(ask("a end") == METROHEAP_CLOSED && strcmp(out, "") == 0 && written == 0);
    strcpy(out, "text");
    CHECK(metroheap_again(&heap, out, sizeof out, NULL) == METROHEAP_CLOSED && strcmp(out, "") == 0);
    CHECK(step(&heap, metroheap_command(METROHEAP_EVENT_END, 0, 0, 0, 0)) == METROHEAP_CLOSED);
    CHECK(judge(metroheap_command(METROHEAP_EVENT_END, 0, 0, 0, 0), reply_of(METROHEAP_REPLY_OK, 0)) ==
          METROHEAP_CLOSED);
    CHECK(metroheap_last_reply(&heap, &reply) == METROHEAP_CLOSED);
    CHECK(metroheap_dump(&heap, &reply) == METROHEAP_CLOSED && metroheap_report(&heap, 1, &reply) == METROHEAP_CLOSED);
    CHECK(metroheap_see_stat(&heap, &reply) == METROHEAP_CLOSED);
    CHECK(metroheap_see_left(&heap, &reply) == METROHEAP_CLOSED);
    CHECK(metroheap_see_report(&heap, 1, &reply) == METROHEAP_CLOSED);
    CHECK(reply.kind == 77 && reply.numbers[0] == 7);
    CHECK(metroheap_reserve(&heap, 1) == METROHEAP_CLOSED && metroheap_reserve(&heap, 0) == METROHEAP_CLOSED);
    CHECK(metroheap_forget(&heap) == METROHEAP_CLOSED);
    CHECK(metroheap_dump_item(&heap, 0, &item) == METROHEAP_CLOSED);
    CHECK(metroheap_deed_item(&heap, 0, &deed) == METROHEAP_CLOSED);
    CHECK(metroheap_last_units(&heap, &units) == METROHEAP_CLOSED && metroheap_tell(&heap, 1) == METROHEAP_CLOSED);
    metroheap_close(&heap);
    metroheap_close(&heap);
    metroheap_close(NULL);
}

static void configurations(void) {
    CHECK(metroheap_open(&heap, 0, 209, 0, 0, 2) == METROHEAP_BAD_CONFIG);
    CHECK(metroheap_open(&heap, 4097, 209, 0, 0, 2) == METROHEAP_BAD_CONFIG);
    CHECK(metroheap_open(&heap, 4, 208, 0, 0, 2) == METROHEAP_BAD_CONFIG);
    CHECK(metroheap_open(&heap, 4, 1000001, 0, 0, 2) == METROHEAP_BAD_CONFIG);
    CHECK(metroheap_open(&heap, 4, 209, 5, 0, 2) == METROHEAP_BAD_CONFIG);
    CHECK(metroheap_open(&heap, 4, 209, 0, 1000001, 2) == METROHEAP_BAD_CONFIG);
    CHECK(metroheap_open(&heap, 4, 209, 0, 0, 0) == METROHEAP_BAD_CONFIG);
    CHECK(metroheap_open(&heap, 4, 209, 0, 0, 3) == METROHEAP_BAD_CONFIG);
    CHECK(metroheap_open_world(&heap, 0) == METROHEAP_BAD_CONFIG);
    CHECK(metroheap_open_world(&heap, 3) == METROHEAP_BAD_CONFIG);
    CHECK(ask("a end") == METROHEAP_CLOSED);
    CHECK(metroheap_open(&heap, 4, 209, 0, 0, 1) == METROHEAP_DONE && answers("a new 0 0 3601", "refused 4 too large"));
    CHECK(metroheap_open(&heap, 0, 0, 0, 0, 2) == METROHEAP_BAD_CONFIG);
    CHECK(metroheap_open_world(&heap, 7) == METROHEAP_BAD_CONFIG);
    CHECK(metroheap_last_reply(&heap, &reply) == METROHEAP_DONE && reply.numbers[0] == METROHEAP_REFUSED_TOO_LARGE);
    CHECK(metroheap_open(&heap, 4, 209, 0, 0, 2) == METROHEAP_DONE);
    CHECK(metroheap_last_reply(&heap, &reply) == METROHEAP_NO_REPLY);
    CHECK(metroheap_last_units(&heap, &units) == METROHEAP_NO_REPLY);
    CHECK(metroheap_last_text(&heap, out, sizeof out, &written) == METROHEAP_NO_REPLY && written == 0);
    CHECK(metroheap_again(&heap, out, sizeof out, &written) == METROHEAP_NO_REPLY && strcmp(out, "") == 0);
}

/* Lines, and texts in buffers that are long enough, too short, or none. */
static void texts(void) {
    char both[32] = "a shape 0";
    CHECK(metroheap_open(&heap, 4, 209, 0, 0, 2) == METROHEAP_DONE);
    CHECK(ask("") == METROHEAP_BLANK && ask("# a end") == METROHEAP_BLANK && ask("\n") == METROHEAP_BLANK);
    CHECK(ask("#\n") == METROHEAP_BLANK);
    CHECK(written == 0 && strcmp(out, "") == 0);
    CHECK(line("a end ", sizeof out) == METROHEAP_WRONG && line("a new 0 0 4294967296", sizeof out) == METROHEAP_WRONG);
    CHECK(ask("a end\n\n") == METROHEAP_WRONG && ask("a end\r\n") == METROHEAP_WRONG);
    CHECK(ask("a new 0\n0 1") == METROHEAP_WRONG);
    CHECK(metroheap_last_reply(&heap, &reply) == METROHEAP_NO_REPLY);
    CHECK(answers("a new 0 0 1", "ok") && answers("a new 0 0 1\n", "ok") && answers("a clear 0", "ok"));
    CHECK(answers("a new 0 0 1", "ok"));
    CHECK(metroheap_ask(&heap, both, both, sizeof both, NULL) == METROHEAP_DONE && strcmp(both, "shape 0 1") == 0);

    /* The text has 9 bytes. A buffer that is too short is left as it was. */
    strcpy(out, "as it was");
    CHECK(line("a shape 0", 8) == METROHEAP_SHORT && written == 9 && strcmp(out, "as it was") == 0);
    CHECK(metroheap_last_text(&heap, out, 8, &written) == METROHEAP_SHORT && written == 9);
    CHECK(strcmp(out, "as it was") == 0);
    CHECK(metroheap_last_text(&heap, out, 9, &written) == METROHEAP_DONE && is_out("shape 0 1"));
    CHECK(line("a shape 0", 9) == METROHEAP_DONE && is_out("shape 0 1"));
    CHECK(metroheap_line(&heap, "a shape 0", 9, NULL, 0, &written) == METROHEAP_SHORT && written == 9);
    CHECK(metroheap_last_text(&heap, NULL, 0, &written) == METROHEAP_SHORT && written == 9);
    CHECK(metroheap_again(&heap, NULL, 0, &written) == METROHEAP_SHORT && written == 9);
    CHECK(metroheap_again(&heap, out, 9, NULL) == METROHEAP_SHORT && strcmp(out, "") == 0);
    CHECK(metroheap_again(&heap, out, 10, NULL) == METROHEAP_DONE && strcmp(out, "shape 0 1") == 0);
    CHECK(metroheap_ask(&heap, "a shape 0", NULL, 0, NULL) == METROHEAP_SHORT);
    CHECK(metroheap_ask(&heap, "a shape 0", out, 1, &written) == METROHEAP_SHORT && written == 9);
    CHECK(strcmp(out, "") == 0);
    CHECK(metroheap_ask(&heap, "a shape 0", out, 10, &written) == METROHEAP_DONE && strcmp(out, "shape 0 1") == 0);
    CHECK(metroheap_ask(&heap, "", NULL, 0, NULL) == METROHEAP_BLANK);

    /* An event whose text is too long is done once. */
    CHECK(line("a write 0 0 5", 0) == METROHEAP_SHORT && answers("a read 0 0", "number 5"));
    CHECK(line("b new 0 0 3", 1) == METROHEAP_SHORT && answers("b shape 0", "shape 0 3"));
    CHECK(answers("* stat", "free 2 live 4 old 0 phase idle cycle 0"));
}

static int has_reason(const char *text, const char *reason) {
    return metroheap_reason(text, strlen(text), out, sizeof out, &written) == METROHEAP_DONE && is_out(reason);
}

static void reasons(void) {
    CHECK(has_reason("a nwe 0 0 1", "\"nwe\" is no command") && has_reason("a end \n", "a space at the end"));
    CHECK(has_reason("a new 0 0 1 # one number", "a comment is a line of its own"));
    CHECK(has_reason("a new 0", "\"new\" takes D R N"));
    strcpy(out, "as it was");
    CHECK(metroheap_reason("a\tend", 5, out, 4, &written) == METROHEAP_SHORT && written == 5);
    CHECK(strcmp(out, "as it was") == 0);
    CHECK(metroheap_reason("a\tend", 5, NULL, 0, &written) == METROHEAP_SHORT && written == 5);
    CHECK(metroheap_reason("a\tend", 5, out, 5, &written) == METROHEAP_DONE && is_out("a tab"));
    CHECK(metroheap_reason("a end\n", 6, out, sizeof out, &written) == METROHEAP_NO_ITEM && written == 0);
    written = 7;
    CHECK(metroheap_reason("# a", 3, out, sizeof out, &written) == METROHEAP_BLANK && written == 0);
    CHECK(metroheap_reason("", 0, NULL, 0, &written) == METROHEAP_BLANK);
}

static void numbers(void) {
    struct sight before;
    CHECK(metroheap_open(&heap, 4, 209, 0, 0, 2) == METROHEAP_DONE);
    CHECK(step(&heap, metroheap_command(METROHEAP_EVENT_NEW, 0, 0, 0, 1)) == METROHEAP_DONE);
    CHECK(reply.kind == METROHEAP_REPLY_OK);

    /* What is no event leaves all as it was. */
    before = sees(&heap);
    reply = reply_of(77, 7);
    CHECK(step(&heap, metroheap_command(0, 0, 0, 0, 0)) == METROHEAP_WRONG);
    CHECK(step(&heap, metroheap_command(19, 0, 0, 0, 0)) == METROHEAP_WRONG);
    for (uint32_t kind = METROHEAP_EVENT_NEW; kind <= METROHEAP_EVENT_PUT; kind++) {
        CHECK(step(&heap, metroheap_command(kind, 0, 0, 0, UINT64_C(1) << 32)) == METROHEAP_WRONG);
    }
    CHECK(reply.kind == 77 && is_as_before(&before, &heap));

    /* Session 0 by number is the first name that a line has. A number sees no name. */
    CHECK(step(&heap, metroheap_command(METROHEAP_EVENT_WRITE, 0, 0, 0, UINT64_MAX)) == METROHEAP_DONE);
    CHECK(reply.kind == METROHEAP_REPLY_OK);
    CHECK(answers("z read 0 0", "number 18446744073709551615") && answers("y read 0 0", "refused 2 null"));
    CHECK(step(&heap, metroheap_command(METROHEAP_EVENT_READ, 0, 0, 0, 9)) == METROHEAP_DONE);
    CHECK(reply.kind == METROHEAP_REPLY_NUMBER && reply.numbers[0] == UINT64_MAX);
    for (uint32_t session = 8; session != 0; session *= 16) {
        CHECK(step(&heap, metroheap_command(METROHEAP_EVENT_CLEAR, session, 0, 0, 0)) == METROHEAP_DONE);
        CHECK(reply.kind == METROHEAP_REPLY_REFUSED);
        CHECK(reply.numbers[0] == METROHEAP_REFUSED_TOO_MANY_SESSIONS);
    }
    CHECK(step(&heap, metroheap_command(METROHEAP_EVENT_CLEAR, UINT32_MAX, 0, 0, 0)) == METROHEAP_DONE);
    CHECK(reply.kind == METROHEAP_REPLY_REFUSED);

    /* A reply by numbers is the text's, and the other way round. */
    CHECK(metroheap_again(&heap, out, sizeof out, NULL) == METROHEAP_DONE);
    CHECK(strcmp(out, "refused 7 too many sessions") == 0);
    CHECK(answers("z shape 0", "shape 0 1") && metroheap_last_reply(&heap, &reply) == METROHEAP_DONE);
    CHECK(reply.kind == METROHEAP_REPLY_SHAPE && reply.numbers[0] == 0 && reply.numbers[1] == 1);
    CHECK(reply.numbers[2] == 0);

    /* The items of a dump, while it is the last reply. */
    CHECK(metroheap_dump_item(&heap, 0, &item) == METROHEAP_NO_ITEM);
    CHECK(metroheap_dump(&heap, &reply) == METROHEAP_DONE && reply.kind == METROHEAP_REPLY_DUMP);
    CHECK(reply.numbers[0] == 2);
    CHECK(metroheap_again(&heap, out, sizeof out, NULL) == METROHEAP_DONE && strcmp(out, "dump P0 C5 - 0=0.0") == 0);
    CHECK(metroheap_dump_item(&heap, 0, &item) == METROHEAP_DONE && item.kind == METROHEAP_ITEM_PAGE);
    CHECK(item.numbers[1] == 5);
    CHECK(metroheap_dump_item(&heap, 1, &item) == METROHEAP_DONE && item.kind == METROHEAP_ITEM_BLOCK);
    CHECK(metroheap_dump_item(&heap, 2, &item) == METROHEAP_NO_ITEM && item.kind == METROHEAP_ITEM_BLOCK);
    CHECK(metroheap_dump_item(&heap, SIZE_MAX, &item) == METROHEAP_NO_ITEM);
    CHECK(step(&heap, metroheap_command(METROHEAP_EVENT_READ, 0, 0, 0, 0)) == METROHEAP_DONE);
    CHECK(metroheap_dump_item(&heap, 0, &item) == METROHEAP_NO_ITEM);
}

/* A report that is seen leaves all as it was, and is what the control answers next. */
static void sees_report(uint64_t window) {
    struct sight before = sees(&heap);
    metroheap_reply seen;
    CHECK(metroheap_see_report(&heap, window, &seen) == METROHEAP_DONE && is_as_before(&before, &heap));
    CHECK(seen.kind == METROHEAP_REPLY_REPORT && seen.numbers[METROHEAP_REPORT_WINDOW] == window);
    CHECK(metroheap_report(&heap, window, &reply) == METROHEAP_DONE && is_same(&reply, &seen));
}

/* What is seen without an event is what the control answers, and the last reply stays. Units add up to the trace. */
static void sights(void) {
    uint64_t at = 0;
    CHECK(metroheap_open(&heap, 4, 209, 4, 7, 2) == METROHEAP_DONE);
    CHECK(metroheap_see_stat(&heap, &reply) == METROHEAP_DONE && reply.kind == METROHEAP_REPLY_STAT);
    CHECK(reply.numbers[METROHEAP_STAT_FREE] == 4);
    CHECK(metroheap_see_report(&heap, 1, &reply) == METROHEAP_DONE && reply.kind == METROHEAP_REPLY_REPORT);
    CHECK(metroheap_last_reply(&heap, &reply) == METROHEAP_NO_REPLY);
    for (uint32_t i = 0; i < 40; i++) {
        struct sight sight;
        CHECK(step(&heap, metroheap_command(METROHEAP_EVENT_NEW, 0, i % 3, 1, i % 8 ? 1 : 60)) == METROHEAP_DONE);
        sight = sees(&heap);
        CHECK(is_same(&sight.last, &reply) && sight.units.at == at);
        CHECK(sight.units.mutator == (reply.kind == METROHEAP_REPLY_OK && i % 8 == 0 ? 3 : 1));
        CHECK(sight.units.ran == (sight.units.collector > 0));
        CHECK(sight.units.phase == sight.stat.numbers[METROHEAP_STAT_PHASE]);
        at += sight.units.mutator + sight.units.collector;
        CHECK(step_control(&heap, METROHEAP_EVENT_STAT) == METROHEAP_DONE && is_same(&reply, &sight.stat));
        CHECK(step_control(&heap, METROHEAP_EVENT_LEFT) == METROHEAP_DONE && is_same(&reply, &sight.left));
        sees_report(0);
        sees_report(i + 1);
        sees_report(at + 1);
        sees_report(UINT64_MAX);
        CHECK(metroheap_report(&heap, 100, &reply) == METROHEAP_DONE);
        CHECK(reply.numbers[METROHEAP_REPORT_MUTATOR] + reply.numbers[METROHEAP_REPORT_COLLECTOR] == at);
        CHECK(metroheap_last_units(&heap, &units) == METROHEAP_DONE && units.at == at);
        CHECK(units.mutator + units.collector + units.ran == 0);
    }
    CHECK(sees(&heap).stat.numbers[METROHEAP_STAT_CYCLE] > 1);
}

static void deeds(void) {
    uint64_t spent = 0, count = 0;
    CHECK(metroheap_open(&heap, 4, 1000, 0, 0, 2) == METROHEAP_DONE);
    CHECK(metroheap_deed_item(&heap, 0, &deed) == METROHEAP_NO_DEEDS);
    CHECK(answers("a new 0 0 1", "ok") && metroheap_deed_item(&heap, 0, &deed) == METROHEAP_NO_DEEDS);
    CHECK(metroheap_tell(&heap, 1) == METROHEAP_DONE && metroheap_deed_item(&heap, 0, &deed) == METROHEAP_NO_DEEDS);
    CHECK(answers("a new 1 1 60", "ok"));
    for (uint64_t part = 0; part < 3; part++) {
        CHECK(metroheap_deed_item(&heap, (size_t)part, &deed) == METROHEAP_DONE && deed.kind == METROHEAP_DEED_MAKE);
        CHECK(deed.units == 0 && deed.numbers[1] == 1 && deed.numbers[2] == part);
        CHECK(deed.numbers[6] == (part < 2 ? METROHEAP_TIER_FRESH : METROHEAP_TIER_DENSE));
    }
    CHECK(metroheap_deed_item(&heap, 3, &deed) == METROHEAP_NO_ITEM);
    CHECK(metroheap_deed_item(&heap, SIZE_MAX, &deed) == METROHEAP_NO_ITEM);
    CHECK(deed.kind == METROHEAP_DEED_MAKE && deed.numbers[2] == 2);
    CHECK(answers("* start", "ok") && metroheap_deed_item(&heap, 0, &deed) == METROHEAP_NO_ITEM);

    /* The units of a quantum's deeds are what it spent. */
    CHECK(step_control(&heap, METROHEAP_EVENT_QUANTUM) == METROHEAP_DONE && reply.kind == METROHEAP_REPLY_SPENT);
    for (size_t i = 0; metroheap_deed_item(&heap, i, &deed) == METROHEAP_DONE; i++) {
        CHECK(i > 0 || (deed.kind == METROHEAP_DEED_START && deed.numbers[0] == 1));
        CHECK(deed.kind != METROHEAP_DEED_ROOT || deed.numbers[0] != 2 ||
              (deed.numbers[1] == METROHEAP_NOWHERE && deed.numbers[3] == 0));
        spent += deed.units;
        count++;
    }
    CHECK(deed.kind == METROHEAP_DEED_END && count > 144 && spent == reply.numbers[0]);
    CHECK(metroheap_tell(&heap, 0) == METROHEAP_DONE && step_control(&heap, METROHEAP_EVENT_STAT) == METROHEAP_DONE);
    CHECK(metroheap_deed_item(&heap, 0, &deed) == METROHEAP_NO_DEEDS && deed.kind == METROHEAP_DEED_END);
}

/* Judging ---------------------------------------------------------------- */

static int differs(metroheap_event asked, metroheap_reply given, metroheap_reply right) {
    return judge(asked, given) == METROHEAP_DIFFERS && is_same(&reply, &right);
}

static int is_right(metroheap_event asked, metroheap_reply given) {
    return judge(asked, given) == METROHEAP_DONE && is_same(&reply, &given);
}

/* What a machine and a world judge alike. */
static void judging_commands(void) {
    metroheap_event made = metroheap_command(METROHEAP_EVENT_NEW, 0, 0, 0, 1);
    metroheap_event read = metroheap_command(METROHEAP_EVENT_READ, 0, 0, 0, 0);
    metroheap_reply ok = reply_of(METROHEAP_REPLY_OK, 0), five = reply_of(METROHEAP_REPLY_NUMBER, 5), other = five;
    CHECK(is_right(read, refused(METROHEAP_REFUSED_NULL)) && is_right(made, ok));
    CHECK(metroheap_last_reply(&heap, &reply) == METROHEAP_DONE && is_same(&reply, &ok));

    /* The event is done as is right. */
    CHECK(differs(metroheap_command(METROHEAP_EVENT_WRITE, 0, 0, 0, 5), refused(METROHEAP_REFUSED_NULL), ok));
    CHECK(is_right(read, five) && differs(read, reply_of(METROHEAP_REPLY_NUMBER, 6), five));
    CHECK(differs(read, reply_of(77, 5), five));
    CHECK(metroheap_last_reply(&heap, &reply) == METROHEAP_DONE && is_same(&reply, &five));

    /* All nine numbers count. */
    other.numbers[8] = 1;
    CHECK(differs(read, other, five) && answers("a read 0 0", "number 5"));
    other = reply_of(77, 7);
    event = metroheap_command(METROHEAP_EVENT_GET, 0, 0, 0, UINT64_C(1) << 32);
    CHECK(metroheap_judge(&heap, &event, &five, &other) == METROHEAP_WRONG && other.kind == 77);
}

static void judging(void) {
    metroheap_reply given;
    CHECK(metroheap_open(&heap, 4, 1000, 0, 0, 2) == METROHEAP_DONE);
    judging_commands();
    /* To a machine a control is an event as any other, and of a dump the number of items counts. */
    CHECK(differs(metroheap_control(METROHEAP_EVENT_STAT, 0), reply_of(METROHEAP_REPLY_OK, 0), sees(&heap).stat));
    CHECK(is_right(metroheap_control(METROHEAP_EVENT_DUMP, 0), reply_of(METROHEAP_REPLY_DUMP, 2)));
    CHECK(metroheap_dump_item(&heap, 1, &item) == METROHEAP_DONE);
    CHECK(differs(metroheap_control(METROHEAP_EVENT_DUMP, 0), reply_of(METROHEAP_REPLY_DUMP, 3),
                  reply_of(METROHEAP_REPLY_DUMP, 2)));
    CHECK(metroheap_report(&heap, 100, &given) == METROHEAP_DONE);
    CHECK(is_right(metroheap_control(METROHEAP_EVENT_REPORT, 100), given));
    CHECK(differs(metroheap_command(METROHEAP_EVENT_NEW, 0, 0, 0, 1), refused(METROHEAP_REFUSED_HEAP_FULL),
                  reply_of(METROHEAP_REPLY_OK, 0)));
}

static void worlds(void) {
    metroheap_event made = metroheap_command(METROHEAP_EVENT_NEW, 1, 0, 2, 3);
    metroheap_reply full = refused(METROHEAP_REFUSED_HEAP_FULL), ok = reply_of(METROHEAP_REPLY_OK, 0);
    CHECK(metroheap_open_world(&heap, 2) == METROHEAP_DONE);
    CHECK(metroheap_last_reply(&heap, &reply) == METROHEAP_NO_REPLY);

    /* To a control it has nothing to say, and does nothing. */
    CHECK(is_right(metroheap_control(METROHEAP_EVENT_STAT, 0), reply_of(77, 7)));
    CHECK(metroheap_last_reply(&heap, &reply) == METROHEAP_NO_REPLY);
    judging_commands();

    /* A full heap is right where an object would be made, and then it isn't. */
    CHECK(is_right(made, full) && answers("b shape 0", "refused 2 null"));
    CHECK(is_right(made, ok) && answers("b shape 0", "shape 2 3") && is_right(made, full));
    CHECK(answers("b shape 0", "shape 2 3"));
    CHECK(differs(metroheap_command(METROHEAP_EVENT_NEW, 1, 16, 0, 0), full, refused(METROHEAP_REFUSED_BAD_SLOT)));
    CHECK(differs(metroheap_command(METROHEAP_EVENT_NEW, 1, 0, 216000, 1), full, refused(METROHEAP_REFUSED_TOO_LARGE)));
    CHECK(differs(metroheap_command(METROHEAP_EVENT_COPY, 1, 1, 0, 0), full, ok));

    /* It does what sessions ask, and has no collector and no trace. */
    CHECK(answers("b new 1 0 216000", "ok") && answers("b read 1 215999", "number 0") && answers("b end", "ok"));
    CHECK(answers("b end", "refused 6 ended"));
    CHECK(step(&heap, metroheap_command(METROHEAP_EVENT_SHAPE, 0, 0, 0, 0)) == METROHEAP_DONE);
    CHECK(reply.kind == METROHEAP_REPLY_SHAPE);
    reply = reply_of(77, 7);
    written = 7;
    CHECK(line("* stat", sizeof out) == METROHEAP_IS_WORLD && written == 0);
    for (uint32_t kind = METROHEAP_EVENT_QUANTUM; kind <= METROHEAP_EVENT_LEFT; kind++) {
        CHECK(step_control(&heap, kind) == METROHEAP_IS_WORLD);
    }
    CHECK(metroheap_see_stat(&heap, &reply) == METROHEAP_IS_WORLD);
    CHECK(metroheap_see_left(&heap, &reply) == METROHEAP_IS_WORLD);
    CHECK(metroheap_see_report(&heap, 1, &reply) == METROHEAP_IS_WORLD);
    CHECK(reply.kind == 77 && reply.numbers[0] == 7);
    CHECK(metroheap_reserve(&heap, 1) == METROHEAP_IS_WORLD && metroheap_forget(&heap) == METROHEAP_IS_WORLD);
    CHECK(metroheap_last_units(&heap, &units) == METROHEAP_IS_WORLD && metroheap_tell(&heap, 1) == METROHEAP_IS_WORLD);
    CHECK(metroheap_dump_item(&heap, 0, &item) == METROHEAP_NO_ITEM);
    CHECK(metroheap_deed_item(&heap, 0, &deed) == METROHEAP_NO_DEEDS);
    CHECK(metroheap_again(&heap, out, sizeof out, NULL) == METROHEAP_DONE && strcmp(out, "shape 0 1") == 0);

    /* A world in the place of a machine, and the other way round. */
    CHECK(metroheap_open_world(&heap, 1) == METROHEAP_DONE && answers("a new 0 0 3601", "refused 4 too large"));
    CHECK(metroheap_open(&heap, 4, 209, 0, 0, 2) == METROHEAP_DONE && answers("* left", "left 0"));
}

/* Traces ----------------------------------------------------------------- */

/* An event of a program that makes objects, links them and drops them, in three sessions. */
static metroheap_event nth_event(uint32_t n) {
    uint32_t session = n % 3, slot = n / 3 % 16;
    switch (n % 5) {
    case 0:
        return metroheap_command(METROHEAP_EVENT_NEW, session, slot, n % 4, n % 7 ? n % 3 : 60);
    case 1:
        return metroheap_command(METROHEAP_EVENT_PUT, session, slot, 0, n % 16);
    case 2:
        return metroheap_command(METROHEAP_EVENT_GET, session, n % 16, slot, 0);
    case 3:
        return metroheap_command(METROHEAP_EVENT_WRITE, session, slot, 0, n);
    default:
        return metroheap_command(METROHEAP_EVENT_READ, session, slot, 0, 0);
    }
}

/* Any event but a dump. Two of three are those of the program, whose sessions aren't ended. */
static metroheap_event any_event(uint32_t n) {
    uint32_t kind = 1 + n / 3 % METROHEAP_EVENT_LEFT, mixed = n * UINT32_C(2654435769) >> 8;
    uint32_t session = kind == METROHEAP_EVENT_END ? 3 + mixed % 6 : mixed % 9;
    if (n % 3 > 0 || kind == METROHEAP_EVENT_DUMP) {
        return nth_event(n);
    }
    return metroheap_command(kind, session, mixed / 9 % 17, mixed / 200 % 5, mixed % 2000);
}

static int is_dump_the_same(metroheap *left, metroheap *right) {
    metroheap_item other;
    CHECK(metroheap_dump(left, &reply) == METROHEAP_DONE && metroheap_dump(right, &reply) == METROHEAP_DONE);
    for (size_t i = 0;; i++) {
        int32_t status = metroheap_dump_item(left, i, &item);
        CHECK(status == metroheap_dump_item(right, i, &other));
        if (status == METROHEAP_NO_ITEM) {
            return i > 0;
        }
        if (item.kind != other.kind || memcmp(item.numbers, other.numbers, sizeof item.numbers) != 0) {
            return 0;
        }
    }
}

static int32_t opens(metroheap *which) {
    return metroheap_open(which, 16, 250, 8, 0, 2);
}

/* Opens a machine whose scheduler runs quanta. */
static int32_t opens_scheduled(metroheap *which) {
    return metroheap_open(which, 16, 250, 8, 30, 2);
}

/* Forgets the trace. Reports are those of a machine without an event then, and all else is as it was. */
static void forgets(void) {
    metroheap fresh = METROHEAP_INIT;
    struct sight before = sees(&heap);
    const uint64_t *n = reply.numbers;
    CHECK(opens_scheduled(&fresh) == METROHEAP_DONE && metroheap_forget(&heap) == METROHEAP_DONE);
    before.report = sees(&fresh).report;
    CHECK(is_as_before(&before, &heap));
    for (uint64_t window = 0; window < 1000; window = 3 * window + 1) {
        metroheap_reply right;
        CHECK(metroheap_see_report(&fresh, window, &right) == METROHEAP_DONE);
        CHECK(metroheap_see_report(&heap, window, &reply) == METROHEAP_DONE && is_same(&reply, &right));
        CHECK(n[METROHEAP_REPORT_MUTATOR] + n[METROHEAP_REPORT_COLLECTOR] + n[METROHEAP_REPORT_QUANTA] == 0);
        CHECK(n[METROHEAP_REPORT_HAS_LEAST] == (window == 0));
    }
    metroheap_close(&fresh);
}

/* A machine that forgets its trace now and then goes on as one that doesn't, but for reports. */
static void forgetting(void) {
    metroheap other = METROHEAP_INIT;
    metroheap_units others;
    uint64_t at = 0, forgotten = 0, window;
    const uint64_t *numbers = reply.numbers;
    CHECK(opens_scheduled(&heap) == METROHEAP_DONE && opens_scheduled(&other) == METROHEAP_DONE);
    CHECK(metroheap_forget(&heap) == METROHEAP_DONE && metroheap_last_reply(&heap, &reply) == METROHEAP_NO_REPLY);
    for (uint32_t n = 0; n < 4000; n++) {
        metroheap_reply answer;
        if (n % 70 == 0) {
            forgets();
            forgotten += at;
            at = 0;
        }
        event = any_event(n);
        CHECK(step(&other, event) == METROHEAP_DONE);
        answer = reply;
        CHECK(step(&heap, event) == METROHEAP_DONE && reply.kind == answer.kind);
        CHECK(reply.kind == METROHEAP_REPLY_REPORT || is_same(&reply, &answer));

        /* Units are the same, but for where they are. */
        CHECK(metroheap_last_units(&heap, &units) == METROHEAP_DONE && units.at == at);
        CHECK(metroheap_last_units(&other, &others) == METROHEAP_DONE && others.at == forgotten + at);
        at += units.mutator + units.collector;
        units.at = others.at;
        CHECK(memcmp(&units, &others, sizeof units) == 0);

        /* A report counts from there, and keeps the promise. */
        window = n % 400;
        CHECK(metroheap_see_report(&heap, window, &reply) == METROHEAP_DONE);
        CHECK(numbers[METROHEAP_REPORT_MUTATOR] + numbers[METROHEAP_REPORT_COLLECTOR] == at);
        CHECK(numbers[METROHEAP_REPORT_HAS_LEAST] == (window <= at) && numbers[METROHEAP_REPORT_HAS_FLOOR] == 1);
        CHECK(window > at || numbers[METROHEAP_REPORT_LEAST] >= numbers[METROHEAP_REPORT_FLOOR]);
        CHECK(numbers[METROHEAP_REPORT_GREATEST] <= 250);
    }
    CHECK(sees(&heap).stat.numbers[METROHEAP_STAT_CYCLE] > 1 && is_dump_the_same(&heap, &other));
    metroheap_close(&other);

    /* Names, the items of the last reply and its deeds stay. */
    CHECK(opens(&heap) == METROHEAP_DONE && metroheap_tell(&heap, 1) == METROHEAP_DONE);
    CHECK(answers("a new 0 0 7", "ok") && answers("b new 0 0 8", "ok") && metroheap_forget(&heap) == METROHEAP_DONE);
    CHECK(metroheap_deed_item(&heap, 0, &deed) == METROHEAP_DONE && deed.numbers[5] == 8);
    CHECK(answers("c shape 0", "refused 2 null") && answers("b shape 0", "shape 0 8"));
    CHECK(metroheap_dump(&heap, &reply) == METROHEAP_DONE && metroheap_forget(&heap) == METROHEAP_DONE);
    CHECK(metroheap_dump_item(&heap, 1, &item) == METROHEAP_DONE && item.kind == METROHEAP_ITEM_BLOCK);
    CHECK(metroheap_forget(&heap) == METROHEAP_DONE && answers("a shape 0", "shape 0 7"));
}

/* Room for no event is made, and room for more events than there is memory for isn't. */
static void reserving(void) {
    static const size_t too_many[] = {SIZE_MAX, SIZE_MAX - 1, SIZE_MAX / 2 + 1, SIZE_MAX / 16, SIZE_MAX / 64};
    CHECK(opens(&heap) == METROHEAP_DONE && metroheap_reserve(&heap, 0) == METROHEAP_DONE);
    CHECK(metroheap_last_reply(&heap, &reply) == METROHEAP_NO_REPLY);
    for (uint32_t n = 0; n < 20; n++) {
        struct sight before = sees(&heap);
        for (size_t i = 0; i < sizeof too_many / sizeof too_many[0]; i++) {
            CHECK(metroheap_reserve(&heap, too_many[i]) == METROHEAP_NO_MEMORY && is_as_before(&before, &heap));
        }
        CHECK(metroheap_reserve(&heap, n) == METROHEAP_DONE && is_as_before(&before, &heap));
        CHECK(step(&heap, nth_event(n)) == METROHEAP_DONE);
    }
}

/* Long runs -------------------------------------------------------------- */

/* A machine goes on past 1,000,000 events in the memory that 100,000 take, and a world in none. */
static void long_histories(void) {
    const uint32_t most = 1000050, room = 100000;
    metroheap_event stat = metroheap_control(METROHEAP_EVENT_STAT, 0);
    metroheap_event same = metroheap_command(METROHEAP_EVENT_SAME, 0, 0, 0, 0);
    uint64_t at = 0;
    CHECK(opens_scheduled(&heap) == METROHEAP_DONE && metroheap_reserve(&heap, room) == METROHEAP_DONE);
    requests = 0;
    for (uint32_t n = 0; n < most; n++) {
        if (n % room == 0) {
            CHECK(metroheap_forget(&heap) == METROHEAP_DONE);
            at = 0;
        }
        CHECK(step(&heap, nth_event(n)) == METROHEAP_DONE);
        CHECK(metroheap_last_units(&heap, &units) == METROHEAP_DONE && units.at == at);
        at += units.mutator + units.collector;
    }
    CHECK(requests == 0 && is_right(stat, sees(&heap).stat) && ask("* stat") == METROHEAP_DONE);
    CHECK(ask("") == METROHEAP_BLANK && ask("a") == METROHEAP_WRONG);
    CHECK(metroheap_see_report(&heap, 100, &reply) == METROHEAP_DONE);
    CHECK(reply.numbers[METROHEAP_REPORT_MUTATOR] + reply.numbers[METROHEAP_REPORT_COLLECTOR] == at);
    CHECK(metroheap_open_world(&heap, 2) == METROHEAP_DONE);
    requests = 0;
    for (uint32_t n = 0; n < most; n++) {
        CHECK(step(&heap, same) == METROHEAP_DONE && reply.kind == METROHEAP_REPLY_YES);
    }
    CHECK(requests == 0 && is_right(same, reply_of(METROHEAP_REPLY_YES, 0)) && answers("a same 0 0", "yes"));
}

/* What is freed ---------------------------------------------------------- */

/* Uses a handle that is open or not: it opens a machine or world over what it had, and does events of all kinds. */
static void uses(int32_t (*open)(metroheap *)) {
    CHECK(open(&heap) == METROHEAP_DONE && held > 0);
    metroheap_tell(&heap, 1);
    metroheap_reserve(&heap, 50);
    for (uint32_t n = 0; n < 200; n++) {
        int32_t status = step(&heap, any_event(n));
        CHECK(status == METROHEAP_DONE || status == METROHEAP_IS_WORLD);
    }
    ask("name new 0 1 1");
    ask("* dump");
    ask("name nwe");
    metroheap_forget(&heap);
}

static int32_t opens_world(metroheap *which) {
    return metroheap_open_world(which, 2);
}

/* A handle that is closed holds nothing, whatever it had been opened over. */
static void freeing(void) {
    metroheap_close(&heap);
    CHECK(held == 0);
    for (int rounds = 0; rounds < 3; rounds++) {
        uses(opens);
        uses(opens_world);
        uses(opens_world);
        uses(opens);
        metroheap_close(&heap);
        CHECK(held == 0);
        metroheap_close(&heap);
        uses(opens_world);
        metroheap_close(&heap);
        CHECK(held == 0);
    }
}

/* Refused memory --------------------------------------------------------- */

/* Has the first request of a call refused, then the second, and so on, until the call asks for no more. A call that is
** refused leaves all as it was. Returns how many requests were refused. */
static long refused_in_turn(metroheap *which, int32_t (*call)(metroheap *), int32_t refusal) {
    for (long grants = 0;; grants++) {
        struct sight before = sees(which);
        void *machine = which->machine;
        refusals = 0;
        granted = grants;
        int32_t status = call(which);
        granted = -1;
        if (status == METROHEAP_DONE) {
            return grants;
        }
        CHECK(refusals > 0 && status == refusal && which->machine == machine && is_as_before(&before, which));
    }
}

/* For so many events room is made. */
enum { RESERVED = 4000 };

static int32_t reserves(metroheap *which) {
    return metroheap_reserve(which, RESERVED);
}

static int32_t steps(metroheap *which) {
    return metroheap_step(which, &event, &reply);
}

/* Judges what is no reply: so the event is done, and what is right is told. */
static int32_t judges(metroheap *which) {
    metroheap_reply given = reply_of(77, 7);
    int32_t status = metroheap_judge(which, &event, &given, &reply);
    return status == METROHEAP_DIFFERS ? METROHEAP_DONE : status;
}

static int32_t reads_again(metroheap *which) {
    return metroheap_last_text(which, out, sizeof out, &written);
}

static int32_t finds_reason(metroheap *which) {
    (void)which;
    return metroheap_reason("a nwe 0 0 1", 11, out, sizeof out, &written);
}

/* Does a line with the first request refused, then the second, and so on, until it is done. If its text is refused it is
** asked for again in the same way. Returns how many requests were refused. */
static long refused_line(const char *text) {
    for (long grants = 0;; grants++) {
        struct sight before = sees(&heap);
        written = 7;
        granted = grants;
        int32_t status = line(text, sizeof out);
        granted = -1;
        if (status == METROHEAP_DONE) {
            return grants;
        }
        CHECK(written == 0);
        if (status == METROHEAP_NO_TEXT) {
            return grants + 1 + refused_in_turn(&heap, reads_again, METROHEAP_NO_TEXT);
        }
        CHECK(status == METROHEAP_NO_MEMORY && is_as_before(&before, &heap));
    }
}

/* Opening, while another machine is open and while none is. */
static void refused_opening(void) {
    metroheap closed = METROHEAP_INIT;
    CHECK(opens(&heap) == METROHEAP_DONE && answers("a new 0 0 5", "ok"));
    CHECK(refused_in_turn(&closed, opens, METROHEAP_NO_MEMORY) > 0 && closed.machine != NULL);
    metroheap_close(&closed);
    CHECK(refused_in_turn(&closed, opens_world, METROHEAP_NO_MEMORY) > 0 && closed.machine != NULL);
    CHECK(refused_in_turn(&closed, opens, METROHEAP_NO_MEMORY) > 0);
    CHECK(refused_in_turn(&closed, opens_world, METROHEAP_NO_MEMORY) > 0);
    metroheap_close(&closed);
    CHECK(answers("a shape 0", "shape 0 5"));
}

/* Events, asked and judged, beside a machine or world that is refused nothing. */
static void refused_events(int32_t (*open)(metroheap *), int32_t (*call)(metroheap *), int is_world) {
    metroheap other = METROHEAP_INIT;
    long commands = 0, quanta = 0, dumps = 0;
    CHECK(open(&heap) == METROHEAP_DONE && open(&other) == METROHEAP_DONE);
    for (uint32_t n = 0; n < 400; n++) {
        metroheap_reply answer;
        long count;
        /* The first event is a quantum, since the first one to which the trace gives room asks for sure. */
        event = nth_event(n);
        if (!is_world && n % 4 == 0) {
            event = metroheap_control(n % 16 == 8 ? METROHEAP_EVENT_DUMP : METROHEAP_EVENT_QUANTUM, 0);
        }
        count = refused_in_turn(&heap, call, METROHEAP_NO_MEMORY);
        commands += event.kind < METROHEAP_EVENT_QUANTUM ? count : 0;
        quanta += event.kind == METROHEAP_EVENT_QUANTUM ? count : 0;
        dumps += event.kind == METROHEAP_EVENT_DUMP ? count : 0;
        answer = reply;
        CHECK(step(&other, event) == METROHEAP_DONE && is_same(&answer, &reply));
    }
    CHECK(commands > 0 && (is_world || (quanta > 0 && dumps > 0 && is_dump_the_same(&heap, &other))));
    metroheap_close(&other);
}

/* Opens a machine whose scheduler runs a quantum after each command, and a cycle after the other. */
static int32_t opens_busy(metroheap *which) {
    return metroheap_open(which, 16, 250, 16, 1, 2);
}

/* Events of all kinds, then commands alone, each of which adds as much to the trace as an event can, and then reports
** of many windows. Of each as many as have room. */
static metroheap_event busy_event(uint32_t n) {
    if (n < RESERVED) {
        return any_event(n);
    }
    return n < 2 * RESERVED || n % 2 ? nth_event(n) : metroheap_control(METROHEAP_EVENT_REPORT, n);
}

/* Where room was made for events, so many ask for no memory, and so many more each time that the trace is forgotten.
** Beside that machine is one without room that is refused nothing. */
static void reserved_events(int32_t (*call)(metroheap *)) {
    metroheap other = METROHEAP_INIT;
    long answered[METROHEAP_EVENT_LEFT + 1] = {0}, added_most = 0;
    CHECK(opens_busy(&heap) == METROHEAP_DONE && opens_busy(&other) == METROHEAP_DONE);
    CHECK(refused_in_turn(&heap, reserves, METROHEAP_NO_MEMORY) > 1);
    for (uint32_t n = 0; n < 3 * RESERVED; n++) {
        metroheap_reply answer;
        if (n % RESERVED == 0) {
            CHECK(metroheap_forget(&heap) == METROHEAP_DONE && metroheap_forget(&other) == METROHEAP_DONE);
        }
        event = busy_event(n);
        requests = 0;
        granted = 0;
        CHECK(call(&heap) == METROHEAP_DONE && requests == 0);
        granted = -1;
        answer = reply;
        CHECK(step(&other, event) == METROHEAP_DONE && is_same(&answer, &reply));
        answered[event.kind] += reply.kind != METROHEAP_REPLY_REFUSED;
        CHECK(metroheap_last_units(&heap, &units) == METROHEAP_DONE);
        added_most += n / RESERVED == 1 && units.mutator > 0 && units.collector > 0;
    }
    for (uint32_t kind = METROHEAP_EVENT_NEW; kind <= METROHEAP_EVENT_LEFT; kind++) {
        CHECK(kind == METROHEAP_EVENT_DUMP || answered[kind] > 0);
    }
    CHECK(added_most == RESERVED && sees(&heap).stat.numbers[METROHEAP_STAT_CYCLE] > 100);

    /* A dump alone asks. */
    CHECK(metroheap_forget(&heap) == METROHEAP_DONE);
    event = metroheap_control(METROHEAP_EVENT_DUMP, 0);
    CHECK(refused_in_turn(&heap, call, METROHEAP_NO_MEMORY) > 0 && is_dump_the_same(&heap, &other));

    /* Room is made for events after others too. */
    CHECK(refused_in_turn(&other, reserves, METROHEAP_NO_MEMORY) > 0);
    requests = 0;
    for (uint32_t n = RESERVED; n < 2 * RESERVED; n++) {
        CHECK(step(&other, busy_event(n)) == METROHEAP_DONE);
    }
    CHECK(requests == 0);
    metroheap_close(&other);
}

/* Opens a machine with room for some events. */
static void opens_with_room(void) {
    CHECK(opens(&heap) == METROHEAP_DONE && metroheap_reserve(&heap, 8) == METROHEAP_DONE);
}

static void refused_texts(void) {
    static const char *const lines[] = {"a new 0 1 1", "a new 1 0 60", "a write 1 0 5", "a put 0 0 1", "* dump",
                                        "* start",     "* quantum",    "a get 2 0 0",   "a read 2 0",  "* report 100"};
    metroheap other = METROHEAP_INIT;
    char right[256];
    size_t length;
    long count = 0;
    CHECK(opens(&heap) == METROHEAP_DONE && opens(&other) == METROHEAP_DONE);
    for (size_t i = 0; i < sizeof lines / sizeof lines[0]; i++) {
        count += refused_line(lines[i]);
        CHECK(metroheap_ask(&other, lines[i], right, sizeof right, &length) == METROHEAP_DONE);
        CHECK(written == length && memcmp(out, right, length) == 0);
    }
    CHECK(count > 0);
    metroheap_close(&other);

    /* The event of a line is done, also if there is no memory for its text. */
    opens_with_room();
    granted = 0;
    refuses_rest = 1;
    strcpy(out, "text");
    CHECK(ask("a new 0 0 7") == METROHEAP_NO_TEXT && strcmp(out, "") == 0 && written == 0);
    CHECK(metroheap_again(&heap, out, sizeof out, &written) == METROHEAP_NO_TEXT && written == 0);
    granted = -1;
    CHECK(metroheap_again(&heap, out, sizeof out, &written) == METROHEAP_DONE && strcmp(out, "ok") == 0);
    CHECK(answers("a shape 0", "shape 0 7"));
    refused_in_turn(&heap, finds_reason, METROHEAP_NO_TEXT);
    CHECK(is_out("\"nwe\" is no command"));

    /* A name is seen in a line that is done, and not in one that is refused. */
    CHECK(opens(&heap) == METROHEAP_DONE);
    granted = 0;
    CHECK(ask("z new 0 0 1") == METROHEAP_NO_MEMORY && strcmp(out, "") == 0 && written == 0);
    granted = -1;
    CHECK(answers("y new 0 0 2", "ok") && answers("z shape 0", "refused 2 null"));
    CHECK(step(&heap, metroheap_command(METROHEAP_EVENT_SHAPE, 0, 0, 0, 0)) == METROHEAP_DONE);
    CHECK(reply.kind == METROHEAP_REPLY_SHAPE && reply.numbers[1] == 2);
}

/* An event is done, also if there is no memory for its deeds. */
static void refused_deeds(void) {
    opens_with_room();
    CHECK(metroheap_tell(&heap, 1) == METROHEAP_DONE);
    granted = 0;
    refuses_rest = 1;
    refusals = 0;
    CHECK(step(&heap, metroheap_command(METROHEAP_EVENT_NEW, 0, 0, 0, 7)) == METROHEAP_DONE);
    CHECK(reply.kind == METROHEAP_REPLY_OK && refusals > 0);
    CHECK(metroheap_deed_item(&heap, 0, &deed) == METROHEAP_NO_DEEDS);
    granted = -1;
    CHECK(metroheap_deed_item(&heap, 0, &deed) == METROHEAP_NO_DEEDS && answers("a shape 0", "shape 0 7"));
    CHECK(answers("a new 1 0 8", "ok") && metroheap_deed_item(&heap, 0, &deed) == METROHEAP_DONE);
    CHECK(deed.numbers[5] == 8);

    /* An event that isn't done leaves the deeds of the last one. */
    granted = 0;
    CHECK(metroheap_dump(&heap, &reply) == METROHEAP_NO_MEMORY);
    CHECK(metroheap_deed_item(&heap, 0, &deed) == METROHEAP_DONE && deed.numbers[5] == 8);
    CHECK(metroheap_deed_item(&heap, 1, &deed) == METROHEAP_NO_ITEM);
    granted = -1;
    CHECK(answers("* start", "ok"));
    granted = 0;
    CHECK(step_control(&heap, METROHEAP_EVENT_QUANTUM) == METROHEAP_DONE && reply.numbers[0] == 250);
    granted = -1;
    CHECK(metroheap_deed_item(&heap, 0, &deed) == METROHEAP_NO_DEEDS);
    CHECK(step_control(&heap, METROHEAP_EVENT_QUANTUM) == METROHEAP_DONE);
    CHECK(metroheap_deed_item(&heap, 0, &deed) == METROHEAP_DONE);
}

int main(void) {
    versions();
    closed_handles();
    configurations();
    texts();
    reasons();
    numbers();
    sights();
    deeds();
    judging();
    worlds();
    forgetting();
    reserving();
    long_histories();
    freeing();
    for (int rest = 0; rest < 2; rest++) {
        refuses_rest = rest;
        refused_opening();
        refused_events(opens, steps, 0);
        refused_events(opens, judges, 0);
        refused_events(opens_world, steps, 1);
        refused_events(opens_world, judges, 1);
        reserved_events(steps);
        reserved_events(judges);
        refused_texts();
        refuses_rest = rest;
        refused_deeds();
    }
    metroheap_close(&heap);
    CHECK(heap.machine == NULL && held == 0);
    closed_handles();
    printf("each status but one, and each refused request\n");
    return 0;
}
