/* The range assignor's target for a few groups, by runs of slots and the place of each, and what an install of it says; after each call, whether a byte
   of the group changed, or one around the entries. It is C and C++ alike. */
#include <stdio.h>
#include <string.h>

#include "one_group.h"

#define BEFORE 0x5A

/* With some bytes before and behind them. */
static uint8_t lent[8 + PANKVISOLO_SLOTS + 8];
static uint8_t *const entries = lent + 8;

static void show_runs(void) {
    unsigned first, next;
    for (first = 0; first < PANKVISOLO_SLOTS; first = next) {
        for (next = first; next < PANKVISOLO_SLOTS && entries[next] == entries[first]; next++) continue;
        printf(" %u-%u:%u", first, next - 1, (unsigned)entries[first]);
    }
}

static const char *since(const struct pankvisolo_group *before) {
    return memcmp(before, &group, sizeof group) == 0 ? "as it was" : "changed";
}

static void assign(const char *name) {
    struct pankvisolo_group before = group;
    bool around = true;
    unsigned i;
    memset(lent, BEFORE, sizeof lent);
    pankvisolo_range_target(&group, entries);
    for (i = 0; i < 8; i++) around = around && lent[i] == BEFORE && entries[PANKVISOLO_SLOTS + i] == BEFORE;
    printf("%s:", name);
    show_runs();
    printf("\n  group %s, bytes around %s\n", since(&before), around ? "as they were" : "changed");
}

/* For the group's epoch, with so much room. */
static void install(size_t room) {
    struct pankvisolo_group before = group;
    struct pankvisolo_reply reply =
        pankvisolo_install(&group, (int32_t)group.epoch, entries, PANKVISOLO_SLOTS, records, room);
    printf("  install, room %u: %u, bytes %u, group %s, T %u\n", (unsigned)room, (unsigned)reply.number,
           (unsigned)reply.written, since(&before), (unsigned)group.target_epoch);
}

int main(void) {
    group = pankvisolo_fresh(1000);
    assign("a fresh group");
    install(sizeof records);

    set_topic(0, 7);
    set_topic(15, 64);
    assign("nobody subscribes");

    /* The member at place 2 has the lowest ID, that at place 0 the highest; that at place 3 has a topic of its own. */
    send(0xCC, 0, 1);
    send(0xBB, 0, 1);
    send(0xAA, 0, 1);
    send(0x99, 0, 0x8000);
    assign("7 over 3, and 64 over 1");
    install(85);
    install(86);
    install(sizeof records);

    send(0xAA, -1, 0);
    assign("one has left");
    install(sizeof records);
    return 0;
}
