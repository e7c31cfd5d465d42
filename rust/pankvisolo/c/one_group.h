/* One group, its topics and its members, for programs that try calls on it. It is C and C++ alike. */
#include <string.h>

#include "pankvisolo.h"

static struct pankvisolo_group group;
static uint8_t records[4096];

static void set_topic(uint32_t number, uint32_t count) {
    struct pankvisolo_id id;
    memset(id.bytes, 0x11 + (int)number, sizeof id.bytes);
    pankvisolo_set_topic(&group, number, id, count, records, sizeof records);
}

/* Epoch 0 joins, -1 leaves. */
static void send(int byte, int32_t epoch, uint16_t subscription) {
    struct pankvisolo_request request;
    memset(&request, 0, sizeof request);
    memset(request.id, byte, sizeof request.id);
    request.epoch = epoch;
    request.tick = group.tick;
    request.timeout = 300;
    request.has_subscription = request.has_list = true;
    request.subscription = subscription;
    pankvisolo_heartbeat(&group, &request, NULL, 0, records, sizeof records, NULL, 0);
}
