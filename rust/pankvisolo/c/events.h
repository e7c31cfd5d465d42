/*
 * An event of each kind on a group of 32 members, the range assignor, and the functions of the journal, for the
 * programs that measure what a call takes. Sixteen topics of sixty-four partitions are shared evenly, and every
 * member has its share or is to have it.
 */
#include <string.h>

#include "pankvisolo.h"

#define MEMBERS PANKVISOLO_PLACES
#define LAST (MEMBERS - 1)
#define START 1000

static struct pankvisolo_group group;
static struct pankvisolo_reply reply;

/* What the next event brings, and what it is lent. */
static struct pankvisolo_request request;
static uint16_t owned[PANKVISOLO_SLOTS];
static size_t owned_count;
static uint8_t entries[PANKVISOLO_SLOTS];
static uint32_t tick, topic;
static uint8_t records[4096];
static uint16_t list[PANKVISOLO_SLOTS];

/* What the events wrote since there was a fresh group, while it is kept. */
static bool keeps;
static uint8_t journal[1 << 16];
static size_t journal_length, last_batch;

static void keep(void) {
    if (!keeps || reply.written == 0) return;
    last_batch = journal_length;
    journal_length += pankvisolo_frame(records, reply.written, journal + journal_length, sizeof journal - journal_length);
}

static void beat(void) {
    reply = pankvisolo_heartbeat(&group, &request, owned, owned_count, records, sizeof records, list, PANKVISOLO_SLOTS);
    keep();
}

static void sweep(void) {
    reply = pankvisolo_sweep(&group, tick, records, sizeof records);
    keep();
}

static void set_topic(void) {
    struct pankvisolo_id id;
    memset(id.bytes, (int)topic + 1, sizeof id.bytes);
    reply = pankvisolo_set_topic(&group, topic, id, 64, records, sizeof records);
    keep();
}

static void install(void) {
    reply = pankvisolo_install(&group, (int32_t)group.epoch, entries, sizeof entries, records, sizeof records);
    keep();
}

static void assign(void) { pankvisolo_range_target(&group, entries); }

static void make(void) {
    group = pankvisolo_fresh(START);
    if (keeps) journal_length = pankvisolo_put_heading(journal, sizeof journal);
}

/* A heartbeat from a member that lists what it holds; in a fresh group each is at the place of its number. */
static void ask(unsigned member, int32_t epoch) {
    memset(&request, 0, sizeof request);
    memset(request.id, (int)member + 1, sizeof request.id);
    request.epoch = epoch;
    request.tick = START;
    request.timeout = -1;
    request.has_list = true;
    owned_count = 0;
    for (uint16_t slot = 0; slot < PANKVISOLO_SLOTS; slot++)
        if (group.holder[slot] == member)
            owned[owned_count++] = slot;
}

static void ask_to_join(unsigned member) {
    ask(member, 0);
    request.timeout = 300000;
    request.has_subscription = true;
    request.subscription = 65535;
    owned_count = 0;
}

static void ask_at_its_epoch(unsigned member) { ask(member, (int32_t)group.member_epochs[member]); }

/* So many topics and members. */
static void join(uint32_t topics, unsigned members) {
    make();
    for (topic = 0; topic < topics; topic++)
        set_topic();
    for (unsigned member = 0; member < members; member++) {
        ask_to_join(member);
        beat();
    }
}

/* Every slot is to go so many members on from the one whose turn it is. */
static void share(unsigned on) {
    for (unsigned slot = 0; slot < PANKVISOLO_SLOTS; slot++)
        entries[slot] = (uint8_t)((slot + on) % MEMBERS);
}

static void joined_but_one(void) { join(PANKVISOLO_TOPICS, LAST); ask_to_join(LAST); }

static void lacking_topic(void) { join(PANKVISOLO_TOPICS - 1, MEMBERS); }

static void joined(void) { join(PANKVISOLO_TOPICS, MEMBERS); share(0); }

static void targeted(void) { joined(); install(); ask_at_its_epoch(LAST); }

static void settled(void) {
    targeted();
    for (unsigned member = 0; member < MEMBERS; member++) {
        ask_at_its_epoch(member);
        beat();
    }
    ask_at_its_epoch(LAST);
    tick = START + 1;
}

/* A member joined again, so that there may be another target. */
static void resettled(void) { settled(); ask_to_join(0); beat(); share(1); }

static void retargeted(void) { resettled(); install(); ask_at_its_epoch(LAST); }

static void fenced(void) { settled(); request.epoch++; }

static void rejoining(void) { settled(); ask_to_join(LAST); }

static void rejoining_empty(void) { rejoining(); beat(); }

static void leaving(void) { settled(); request.epoch = -1; }

static void silent(void) { settled(); tick = START + 45000; }

/* A journal with a batch of every kind: a member moves its share, gives it back, leaves, and the others are swept. */
static void kept(void) {
    keeps = true;
    retargeted();
    beat();
    ask_at_its_epoch(LAST);
    owned_count = 0;
    beat();
    request.epoch = -1;
    beat();
    tick = START + 45000;
    sweep();
    keeps = false;
}

/* Its last batch is of no group but the one before it. */
static void kept_refused(void) {
    kept();
    memmove(journal + 4, journal + last_batch, journal_length - last_batch);
}

static void read_journal(void) {
    reply.number = pankvisolo_read_journal(&group, tick, journal, journal_length).verdict;
}

static void read_again(void) {
    struct pankvisolo_extent batch = pankvisolo_next_batch(journal, journal_length, last_batch);
    reply.number = pankvisolo_read_batch(&group, tick, journal + batch.start, batch.end - batch.start);
}

static void next_batch(void) { reply.number = pankvisolo_next_batch(journal, journal_length, last_batch).verdict; }

static void frame(void) { reply.number = pankvisolo_frame(records, 4096, journal, 4098) != 4098; }

static const struct event {
    const char *name;
    void (*prepare)(void);
    void (*run)(void);
    uint32_t number;
} events[] = {
    {"heartbeat that changes nothing", settled, beat, 0},
    {"heartbeat refused (110)", fenced, beat, 110},
    {"heartbeat that moves its share to giving back", retargeted, beat, 0},
    {"heartbeat that takes its share", targeted, beat, 0},
    {"join", joined_but_one, beat, 0},
    {"join again, holding its share", rejoining, beat, 0},
    {"join again, holding nothing", rejoining_empty, beat, 0},
    {"leave", leaving, beat, 0},
    {"sweep that removes nobody", settled, sweep, 0},
    {"sweep that removes everybody", silent, sweep, 0},
    {"topic", lacking_topic, set_topic, 0},
    {"install of the first target", joined, install, 0},
    {"install that changes every target", resettled, install, 0},
    {"range target", joined, assign, 0},
    {"fresh", settled, make, 0},
};

#define EVENTS (sizeof events / sizeof *events)

/* The same of the journal. */
static const struct event readings[] = {
    {"reading a journal", kept, read_journal, PANKVISOLO_WHOLE},
    {"reading a journal that is refused", kept_refused, read_journal, PANKVISOLO_REFUSED},
    {"reading a batch that is refused", kept, read_again, false},
    {"finding the next batch", kept, next_batch, PANKVISOLO_BATCH},
    {"framing the largest batch", settled, frame, 0},
};

#define READINGS (sizeof readings / sizeof *readings)
