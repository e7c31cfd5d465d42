/* P1 to P4 of 01's worked example, with a sweep and two refusals after them, and their journal read back. It is C and C++ alike. */
#include <stdio.h>
#include <string.h>

#include "pankvisolo.h"

static struct pankvisolo_group group;
static uint8_t records[4096];
static uint16_t list[PANKVISOLO_SLOTS];
static uint8_t journal[4096];
static size_t journal_length;

static void show(const char *name, struct pankvisolo_reply reply, size_t slots) {
    size_t i;
    printf("%s: %u, interval %u, epoch %lld, count %u, slot %u\n", name, (unsigned)reply.number,
           (unsigned)reply.interval, (long long)reply.epoch, (unsigned)reply.count, (unsigned)reply.slot);
    printf("  slots");
    for (i = 0; i < slots; i++) printf(" %u", (unsigned)list[i]);
    printf("\n  bytes");
    for (i = 0; i < reply.written; i++) printf(" %02X", (unsigned)records[i]);
    printf("\n  G %u, T %u, tick %u\n", (unsigned)group.epoch, (unsigned)group.target_epoch, (unsigned)group.tick);
    journal_length += pankvisolo_frame(records, reply.written, journal + journal_length, sizeof journal - journal_length);
}

/* The first bytes of the journal, at tick 60000. */
static void read_back(const char *name, size_t length) {
    struct pankvisolo_reading reading = pankvisolo_read_journal(&group, 60000, journal, length);
    printf("%s, %u bytes: verdict %u, end %u\n", name, (unsigned)length, (unsigned)reading.verdict, (unsigned)reading.end);
    printf("  G %u, T %u, tick %u\n", (unsigned)group.epoch, (unsigned)group.target_epoch, (unsigned)group.tick);
}

/* The same batch by batch, as a host would that has not the whole file in memory. */
static void read_by_batches(void) {
    size_t at = sizeof PANKVISOLO_JOURNAL_HEADING - 1;
    struct pankvisolo_extent batch;
    group = pankvisolo_fresh(60000);
    printf("by batches:");
    for (;;) {
        batch = pankvisolo_next_batch(journal, journal_length, at);
        if (batch.verdict != PANKVISOLO_BATCH) break;
        if (!pankvisolo_read_batch(&group, 60000, journal + batch.start, batch.end - batch.start)) break;
        printf(" %u-%u", (unsigned)batch.start, (unsigned)batch.end);
        at = batch.end;
    }
    printf("\n  verdict %u, G %u, T %u, tick %u\n", (unsigned)batch.verdict, (unsigned)group.epoch, (unsigned)group.target_epoch, (unsigned)group.tick);
}

/* The list that it owns, where it has one, is empty. */
static void heartbeat(const char *name, struct pankvisolo_request request) {
    struct pankvisolo_reply reply =
        pankvisolo_heartbeat(&group, &request, NULL, 0, records, sizeof records, list, PANKVISOLO_SLOTS);
    show(name, reply, reply.count);
}

int main(void) {
    struct pankvisolo_id id;
    struct pankvisolo_request request;
    uint8_t entries[PANKVISOLO_SLOTS];

    group = pankvisolo_fresh(1000);
    journal_length = pankvisolo_put_heading(journal, sizeof journal);
    memset(id.bytes, 0x11, sizeof id.bytes);
    show("P1", pankvisolo_set_topic(&group, 0, id, 3, records, sizeof records), 0);

    memset(&request, 0, sizeof request);
    memset(request.id, 0xAA, sizeof request.id);
    request.tick = 1000;
    request.timeout = 300;
    request.has_subscription = true;
    request.subscription = 1;
    request.has_list = true;
    heartbeat("P2", request);

    memset(entries, PANKVISOLO_NO_PLACE, sizeof entries);
    entries[0] = entries[1] = entries[2] = 0;
    show("P3", pankvisolo_install(&group, 1, entries, sizeof entries, records, sizeof records), 0);

    request.epoch = 1;
    request.timeout = -1;
    request.has_subscription = false;
    request.has_list = false;
    heartbeat("P4", request);

    show("install again", pankvisolo_install(&group, 1, entries, sizeof entries, records, sizeof records), 0);
    show("short install", pankvisolo_install(&group, 1, entries, 1023, records, sizeof records), 0);
    show("sweep", pankvisolo_sweep(&group, 46000, records, sizeof records), 0);

    read_back("journal", journal_length);
    read_back("cut", journal_length - 1);
    journal[journal_length - 1]++;
    read_back("another epoch", journal_length);
    journal[journal_length - 1]--;
    read_by_batches();
    return 0;
}
