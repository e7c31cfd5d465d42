/* Installs that leave a slot over, and such that may: the number and the slot of each reply, and whether a byte of the group changed. Then a journal
   whose target leaves slot 2 over. It is C and C++ alike. */
#include <stdio.h>
#include <string.h>

#include "one_group.h"

#define SIXTEEN(byte) byte, byte, byte, byte, byte, byte, byte, byte, byte, byte, byte, byte, byte, byte, byte, byte

/* A topic of three partitions, a member that subscribes to it, and a target in which it has two. */
static const uint8_t journal[] = {
    'G', 'R', 'J', '1',
    19, 4, 0, SIXTEEN(0x11), 3,
    29, 5, 0, 1, SIXTEEN(0xAA), 0xAC, 2, 1, 3, 1, 8, 0, 1, 0, 0,
    7, 7, 0, 2, 0, 1, 6, 1,
};

static uint8_t entries[PANKVISOLO_SLOTS];

/* For the group's epoch; the group stays as it is. */
static void install(const char *name) {
    struct pankvisolo_group after = group;
    struct pankvisolo_reply reply =
        pankvisolo_install(&after, (int32_t)group.epoch, entries, sizeof entries, records, sizeof records);
    printf("%s: %u, slot %u, group %s\n", name, (unsigned)reply.number, (unsigned)reply.slot,
           memcmp(&after, &group, sizeof group) == 0 ? "as it was" : "changed");
}

/* With that entry in place of the one there. */
static void install_with(const char *name, unsigned slot, uint8_t place) {
    uint8_t before = entries[slot];
    entries[slot] = place;
    install(name);
    entries[slot] = before;
}

/* Topics 0, 7 and 15, to which the member subscribes, and topic 1, to which nobody does. */
static void of_a_group(void) {
    group = pankvisolo_fresh(1000);
    set_topic(0, 3);
    set_topic(1, 2);
    set_topic(7, 2);
    set_topic(15, 64);
    send(0xAA, 0, 0x8081);
    memset(entries, PANKVISOLO_NO_PLACE, sizeof entries);
    memset(entries, 0, 3);
    memset(entries + 448, 0, 2);
    memset(entries + 960, 0, 64);
    install_with("the first slot left over", 0, PANKVISOLO_NO_PLACE);
    install_with("one in the middle left over", 449, PANKVISOLO_NO_PLACE);
    install_with("the last slot left over", 1023, PANKVISOLO_NO_PLACE);
    entries[1] = PANKVISOLO_NO_PLACE;
    install_with("left over, then to an empty place", 2, 1);
    entries[1] = 1;
    install_with("to an empty place, then left over", 2, PANKVISOLO_NO_PLACE);
    entries[1] = 0;
    install("none left over");
    send(0xAA, -1, 0);
    memset(entries, PANKVISOLO_NO_PLACE, sizeof entries);
    install("nobody subscribes");
}

static void of_a_journal(void) {
    size_t at = 4;
    struct pankvisolo_extent batch;
    struct pankvisolo_reading reading = pankvisolo_read_journal(&group, 60000, journal, sizeof journal);
    printf("journal: verdict %u, end %u, T %u, slot 2 to %u\n", (unsigned)reading.verdict, (unsigned)reading.end,
           (unsigned)group.target_epoch, (unsigned)group.target[2]);

    group = pankvisolo_fresh(60000);
    for (;;) {
        batch = pankvisolo_next_batch(journal, sizeof journal, at);
        if (batch.verdict != PANKVISOLO_BATCH) break;
        if (!pankvisolo_read_batch(&group, 60000, journal + batch.start, batch.end - batch.start)) break;
        at = batch.end;
    }
    printf("by batches: verdict %u, T %u, slot 2 to %u\n", (unsigned)batch.verdict, (unsigned)group.target_epoch,
           (unsigned)group.target[2]);

    send(0xBB, 0, 1);
    memset(entries, PANKVISOLO_NO_PLACE, sizeof entries);
    memset(entries, 0, 2);
    install("slot 2 left over again");
    install_with("slot 2 given", 2, 1);
}

int main(void) {
    of_a_group();
    of_a_journal();
    return 0;
}
