/* A collection, asked by numbers: the script under "Collecting" in
** docs/SCRIPTS.md. It prints what that page does. */
#include "names.h"

#include <stdlib.h>

static metroheap heap = METROHEAP_INIT;
static metroheap_reply reply;

static void checks(int32_t status) {
    if (status != METROHEAP_DONE) {
        fprintf(stderr, "collecting: %s\n", metroheap_status_text(status));
        exit(1);
    }
}

static void asks(metroheap_event event) {
    checks(metroheap_step(&heap, &event, &reply));
}

static void prints_item(const metroheap_item *item) {
    const uint64_t *n = item->numbers;
    switch (item->kind) {
    case METROHEAP_ITEM_PAGE:
        printf(" P%" PRIu64 " C%" PRIu64 " %c", n[0], n[1], n[2] ? '+' : '-');
        break;
    case METROHEAP_ITEM_BLOCK:
        printf(" %" PRIu64 "=%" PRIu64 ".%" PRIu64, n[0], n[1], n[2]);
        break;
    default:
        printf(" %" PRIu64 ">%" PRIu64 ".%" PRIu64, n[0], n[1], n[2]);
    }
}

static void dumps(void) {
    metroheap_item item;
    checks(metroheap_dump(&heap, &reply));
    printf("dump");
    for (size_t i = 0; metroheap_dump_item(&heap, i, &item) == METROHEAP_DONE; i++) {
        prints_item(&item);
    }
    printf("\n");
}

/* A whole cycle fits one quantum here. */
static void collects(void) {
    asks(metroheap_control(METROHEAP_EVENT_START, 0));
    asks(metroheap_control(METROHEAP_EVENT_QUANTUM, 0));
    prints_reply(stdout, &reply);
    printf("\n");
    dumps();
    checks(metroheap_see_stat(&heap, &reply));
    prints_reply(stdout, &reply);
    printf("\n");
}

int main(void) {
    if (metroheap_version() != METROHEAP_VERSION_NUMBER) {
        fprintf(stderr, "collecting: the header is not that of the library\n");
        return 1;
    }
    checks(metroheap_open(&heap, 4, 1000, 0, 0, 2));
    for (uint32_t slot = 0; slot < 6; slot++) {
        asks(metroheap_command(METROHEAP_EVENT_NEW, 0, slot, 0, 60));
    }
    asks(metroheap_command(METROHEAP_EVENT_CLEAR, 0, 1, 0, 0));
    asks(metroheap_command(METROHEAP_EVENT_CLEAR, 0, 5, 0, 0));
    dumps();
    collects();
    collects();
    metroheap_close(&heap);
    return 0;
}
