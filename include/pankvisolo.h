/*
 * Pankvisolo: the proved consumer-group coordinator, for hosts in C or C++ on x86-64 Linux.
 *
 * `tools/archive` writes the archive to link: target/staticlib/libpankvisolo.a. Of the C
 * library it needs memcpy and memset, and nothing else; it allocates nothing and has no state
 * of its own.
 *
 * A group is the host's memory, lent by pointer and changed in place; buffers and lists are lent for the
 * call, each as a pointer and a number of elements. An event either is refused, and then every byte of
 * the group, of `records` and of `list` is as it was; or it is accepted, and then the first `written`
 * bytes of `records` are to be stored, and the first `count` entries of `list` are the member's slots.
 * What lies behind those is left as it was. 4,096 bytes and 1,024 slots are room enough for any event.
 *
 * The functions take every number. What they ask of a caller is C's own: a pointer is good for what it is
 * lent for, and NULL will do where a length is 0; the group and whatever is written overlap with nothing; a
 * bool is 0 or 1; and one group is used by one at a time. What is proved of a whole run is proved of a group
 * that came from pankvisolo_fresh or from a journal and was changed by these functions alone. An event and
 * pankvisolo_range_target need at most PANKVISOLO_STACK bytes of stack, and what a journal needs
 * PANKVISOLO_JOURNAL_STACK.
 *
 * A journal is a file from which a group is read back: PANKVISOLO_JOURNAL_HEADING, then for each event that wrote
 * records their length, as a number in groups of seven bits, and the records. The host stores the batch of an
 * event, and all before it, before it sends the answer; and it cuts a torn tail off before it stores again.
 *
 * Partition p of topic t is slot 64t + p. Ticks are the host's clock in milliseconds and may run over.
 */
#ifndef PANKVISOLO_H
#define PANKVISOLO_H

#include <stdbool.h>
#include <stddef.h>
#include <stdint.h>

#ifdef __cplusplus
extern "C" {
#endif

#define PANKVISOLO_VERSION_MAJOR 0
#define PANKVISOLO_VERSION_MINOR 1
#define PANKVISOLO_VERSION_PATCH 0
#define PANKVISOLO_VERSION "0.1.0"

#define PANKVISOLO_TOPICS 16
#define PANKVISOLO_PLACES 32
#define PANKVISOLO_SLOTS 1024

/* The bytes of stack that an event or pankvisolo_range_target needs at most, and a function of the journal;
   rust/pankvisolo/c/stack.c measures them. */
#define PANKVISOLO_STACK 5120
#define PANKVISOLO_JOURNAL_STACK 20480

/* What a journal begins with, without the 0 at the string's end. */
#define PANKVISOLO_JOURNAL_HEADING "GRJ1"

/* In the tables and in the entries of an install: no place. */
#define PANKVISOLO_NO_PLACE 255
/* In a reply: no slot. */
#define PANKVISOLO_NO_SLOT 65535

/* The numbers of a reply: what is refused, and why. Where several hold, the first in this order is given. */
enum {
    PANKVISOLO_ACCEPTED = 0,
    /* A heartbeat or a sweep: its tick is 2^31 or more past the last one, which is to say before it. */
    PANKVISOLO_CLOCK = 1001,
    /* A heartbeat: its ID is all zero; its epoch is below -1; its timeout is neither -1 nor 1 to 1,800,000;
       its list doesn't rise or has a number above 1,023; or it joins without a subscription, a timeout or an
       empty list. Of a leave only the ID is looked at. Also, after PANKVISOLO_FENCED_MEMBER_EPOCH: an ordinary
       heartbeat lists a slot that its sender doesn't hold. */
    PANKVISOLO_INVALID_REQUEST = 42,
    /* An ordinary heartbeat or a leave: the ID is no member's. */
    PANKVISOLO_UNKNOWN_MEMBER_ID = 25,
    /* A join: the ID is no member's, and every place is taken. */
    PANKVISOLO_GROUP_MAX_SIZE_REACHED = 81,
    /* An ordinary heartbeat: its epoch is not the member's. */
    PANKVISOLO_FENCED_MEMBER_EPOCH = 110,
    /* An install: there are not 1,024 entries, and PANKVISOLO_NO_SLOT is reported. Also, after
       PANKVISOLO_ALREADY: an entry's place is free or there is none such, its slot doesn't exist, or its member
       doesn't subscribe to the topic; or a slot is left over: its entry is PANKVISOLO_NO_PLACE, it exists, and
       some member subscribes to the topic. The first bad slot of either sort is reported. */
    PANKVISOLO_BAD_TARGET = 1006,
    /* An install: its epoch is not the group's. */
    PANKVISOLO_STALE = 1004,
    /* An install: the group's epoch has its target. */
    PANKVISOLO_ALREADY = 1005,
    /* A topic: its number is above 15, its count not 1 to 64, its ID all zero or another topic's; or there is
       a topic of the number, and it has another ID or a larger count. */
    PANKVISOLO_BAD_TOPIC = 1007,
    /* A join, a changed subscription or a topic: the group's epoch would rise past 2,147,483,647. */
    PANKVISOLO_EPOCH_END = 1002,
    /* The records don't fit `records`, or the slots `list`. */
    PANKVISOLO_ROOM = 1003
};

/*
 * A group. Read it as you like; make one with pankvisolo_fresh and change it by events alone.
 *
 * Members stand in columns by place. With w0 to w3 the little-endian words of a member's ID, its column 0 is
 * the sum of all four and the other columns are w1, w2 and w3; where all four are 0, the place is free and
 * its other columns don't count.
 */
struct pankvisolo_group {
    uint32_t epoch;
    uint32_t target_epoch;
    uint32_t tick; /* of the last accepted event that had one */
    uint32_t member_ids[4][PANKVISOLO_PLACES];
    uint32_t member_epochs[PANKVISOLO_PLACES];
    uint32_t subscriptions[PANKVISOLO_PLACES]; /* topic t is 2^t */
    uint32_t timeouts[PANKVISOLO_PLACES];
    uint32_t heard[PANKVISOLO_PLACES];      /* the tick at which the member was last heard */
    uint32_t revoked_at[PANKVISOLO_PLACES]; /* the tick at which it was last asked to give slots back */
    uint8_t topic_ids[PANKVISOLO_TOPICS][16];
    uint8_t topic_counts[PANKVISOLO_TOPICS]; /* 0: there is no topic of the number */
    uint8_t target[PANKVISOLO_SLOTS];        /* the place that is to have the slot, */
    uint8_t holder[PANKVISOLO_SLOTS];        /* the place that has it, */
    bool waiting[PANKVISOLO_SLOTS];          /* and whether that one is giving it back */
};

/* A member's heartbeat, but for its list of owned slots. Epoch 0 joins, -1 leaves, above 0 is ordinary. */
struct pankvisolo_request {
    uint8_t id[16];
    int32_t epoch;
    uint32_t tick;
    int32_t timeout; /* -1: not given */
    bool has_subscription;
    uint16_t subscription; /* topic t is 2^t */
    bool has_list;         /* without it the list that is lent beside the request doesn't count */
};

/* The ID of a topic. */
struct pankvisolo_id {
    uint8_t bytes[16];
};

struct pankvisolo_reply {
    uint32_t number;   /* PANKVISOLO_ACCEPTED, or why the event is refused */
    uint32_t interval; /* of heartbeats, in an answer to a join or an ordinary one */
    int64_t epoch;     /* the member's, in such an answer; -1 in the answer to a leave */
    uint32_t count;    /* the slots in such an answer, or the members that a sweep removed */
    uint16_t slot;     /* what PANKVISOLO_BAD_TARGET reports, or PANKVISOLO_NO_SLOT */
    size_t written;    /* the bytes of records */
};

/* What a journal, or what stands in it where a length would, is found to be. */
enum {
    /* A journal that is right to its end. Of an extent: the bytes end here. */
    PANKVISOLO_WHOLE = 0,
    /* It is right so far and ends inside the heading, a length or a batch: what is left is its torn tail. */
    PANKVISOLO_TORN = 1,
    /* It has another heading; a length that is 0, above 4,096, unfinished after two bytes or not in fewest bytes;
       or a batch that no event would write for the group so far. */
    PANKVISOLO_REFUSED = 2,
    /* Of an extent alone: a batch, all of whose bytes are there. */
    PANKVISOLO_BATCH = 3
};

struct pankvisolo_reading {
    uint32_t verdict; /* PANKVISOLO_WHOLE, PANKVISOLO_TORN or PANKVISOLO_REFUSED */
    size_t end;       /* where the good part ends and the next batch is to stand; then the torn tail begins, or
                         stands the length that is refused. 0 where the heading is cut or another */
};

struct pankvisolo_extent {
    uint32_t verdict;
    size_t start; /* of the records of a batch, behind their length; otherwise where it was looked */
    size_t end;   /* of the batch; otherwise where it was looked */
};

/* Where the archive's struct has another size, this doesn't compile. */
#define PANKVISOLO_SIZE(name, size) \
    typedef char pankvisolo_size_of_##name[sizeof(struct pankvisolo_##name) == (size) ? 1 : -1]
PANKVISOLO_SIZE(group, 4508);
PANKVISOLO_SIZE(request, 36);
PANKVISOLO_SIZE(id, 16);
PANKVISOLO_SIZE(reply, 32);
PANKVISOLO_SIZE(reading, 16);
PANKVISOLO_SIZE(extent, 24);
#undef PANKVISOLO_SIZE

/* A group with no topics and no members. */
struct pankvisolo_group pankvisolo_fresh(uint32_t tick);

/* A member joins, leaves or says that it is there. */
struct pankvisolo_reply pankvisolo_heartbeat(
    struct pankvisolo_group *group, const struct pankvisolo_request *request,
    const uint16_t *owned, size_t owned_length,
    uint8_t *records, size_t records_length,
    uint16_t *list, size_t list_length);

/* Removes the members that weren't heard for too long, or took too long to give slots back. */
struct pankvisolo_reply pankvisolo_sweep(
    struct pankvisolo_group *group, uint32_t tick,
    uint8_t *records, size_t records_length);

/* Makes a topic, or raises its number of partitions. */
struct pankvisolo_reply pankvisolo_set_topic(
    struct pankvisolo_group *group, uint32_t number, struct pankvisolo_id id, uint32_t count,
    uint8_t *records, size_t records_length);

/* Sets who is to have each slot: 1,024 entries, each a place or PANKVISOLO_NO_PLACE. A slot that exists and to whose
   topic some member subscribes goes to such a member, and every other slot to nobody; otherwise it is
   PANKVISOLO_BAD_TARGET. */
struct pankvisolo_reply pankvisolo_install(
    struct pankvisolo_group *group, int32_t epoch,
    const uint8_t *entries, size_t entries_length,
    uint8_t *records, size_t records_length);

/* The range assignor, for a host that has no assignor of its own: writes a target for the group as it is, all
   1,024 entries, each a place or PANKVISOLO_NO_PLACE, and changes nothing of the group. Of each topic the members
   that subscribe to it are taken in rising order of ID bytes; of n partitions over k members the first n mod k get
   one more than the rest, each a run of neighbours, in that order. A slot that doesn't exist, or to whose topic
   nobody subscribes, goes to nobody.

   An install of it for the group's epoch is accepted whenever the target's epoch is below the group's and there is
   room for the records; 4,096 bytes always are. It depends on the topics and on the members' subscriptions and IDs
   alone, not on who holds what. So a host calls it, and installs what it wrote, after each answer with which the
   group's epoch rose above the target's, and after a journal is read, where the target's is below. */
void pankvisolo_range_target(const struct pankvisolo_group *group, uint8_t entries[PANKVISOLO_SLOTS]);

/* Reads a journal. The group, which is written over whatever it was, is the one after the last good batch, and
   every tick in it is the tick of reading. A target in it may leave slots over: a journal is read without that rule
   of an install, so that one which a broker from before the rule wrote is read and gone on with. */
struct pankvisolo_reading pankvisolo_read_journal(
    struct pankvisolo_group *group, uint32_t tick,
    const uint8_t *bytes, size_t bytes_length);

/* For a journal that is read batch by batch, from pankvisolo_fresh(tick) on: what stands at `at`, where a length
   would. The first stands behind the heading. Beyond the end of the bytes it is PANKVISOLO_WHOLE too. */
struct pankvisolo_extent pankvisolo_next_batch(const uint8_t *bytes, size_t bytes_length, size_t at);

/* Takes the records of one batch on, and every tick becomes the tick of reading; here too an install may leave slots
   over. False: no event would write them for this group, and every byte of it is as it was. */
bool pankvisolo_read_batch(
    struct pankvisolo_group *group, uint32_t tick,
    const uint8_t *batch, size_t batch_length);

/* Writes a batch as it stands in the file, and returns its bytes: the length and the records of one event. 4,098
   bytes are room enough for any. 0, and nothing is written: there are no records, more than 4,096 bytes of them,
   or no room. */
size_t pankvisolo_frame(
    const uint8_t *records, size_t records_length,
    uint8_t *journal, size_t journal_length);

/* Writes PANKVISOLO_JOURNAL_HEADING and returns its 4 bytes; 0, and nothing is written: there is no room. */
size_t pankvisolo_put_heading(uint8_t *journal, size_t journal_length);

#ifdef __cplusplus
}
#endif

#endif
