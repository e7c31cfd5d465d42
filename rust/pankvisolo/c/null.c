/* NULL for every list and buffer of length 0: a topic that is there already, a sweep, a join that has no room, two refused installs; a journal, a batch. */
#include <stdio.h>
#include <string.h>

#include "pankvisolo.h"

int main(void) {
    static struct pankvisolo_group group;
    uint8_t records[64];
    struct pankvisolo_id id;
    struct pankvisolo_request join;
    group = pankvisolo_fresh(1000);
    memset(&id, 0x11, sizeof id);
    memset(&join, 0, sizeof join);
    memset(join.id, 0xAA, sizeof join.id);
    join.tick = 1000;
    join.timeout = 300;
    join.has_subscription = join.has_list = true;
    join.subscription = 1;
    pankvisolo_set_topic(&group, 0, id, 3, records, sizeof records);
    uint32_t topic = pankvisolo_set_topic(&group, 0, id, 3, NULL, 0).number;
    uint32_t sweep = pankvisolo_sweep(&group, 1000, NULL, 0).number;
    uint32_t room = pankvisolo_heartbeat(&group, &join, NULL, 0, NULL, 0, NULL, 0).number;
    uint32_t joined = pankvisolo_heartbeat(&group, &join, NULL, 0, records, sizeof records, NULL, 0).number;
    uint32_t install = pankvisolo_install(&group, 1, NULL, 0, NULL, 0).number;
    printf("%u %u %u %u %u\n", topic, sweep, joined, install, room);
    bool batch = pankvisolo_read_batch(&group, 2000, NULL, 0);
    struct pankvisolo_extent next = pankvisolo_next_batch(NULL, 0, 0);
    size_t framed = pankvisolo_frame(NULL, 0, NULL, 0);
    size_t unframed = pankvisolo_frame(records, 1, NULL, 0);
    size_t heading = pankvisolo_put_heading(NULL, 0);
    struct pankvisolo_reading reading = pankvisolo_read_journal(&group, 2000, NULL, 0);
    printf("%u %zu, %u %zu, %d, %zu %zu, %zu\n", reading.verdict, reading.end, next.verdict, next.end, batch, framed, unframed, heading);
    return 0;
}
