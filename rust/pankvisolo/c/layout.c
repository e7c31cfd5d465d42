/* Prints the size of each struct of the header and the offset and size of each of its fields. */
#include <stdio.h>

#include "pankvisolo.h"

#define STRUCT(name) printf("%s: %zu\n", #name, sizeof(struct pankvisolo_##name))
#define FIELD(name, field)                                        \
    printf("%s.%s: %zu %zu\n", #name, #field,                     \
           offsetof(struct pankvisolo_##name, field),             \
           sizeof(((struct pankvisolo_##name *)0)->field))

int main(void) {
    STRUCT(group);
    FIELD(group, epoch);
    FIELD(group, target_epoch);
    FIELD(group, tick);
    FIELD(group, member_ids);
    FIELD(group, member_epochs);
    FIELD(group, subscriptions);
    FIELD(group, timeouts);
    FIELD(group, heard);
    FIELD(group, revoked_at);
    FIELD(group, topic_ids);
    FIELD(group, topic_counts);
    FIELD(group, target);
    FIELD(group, holder);
    FIELD(group, waiting);
    STRUCT(request);
    FIELD(request, id);
    FIELD(request, epoch);
    FIELD(request, tick);
    FIELD(request, timeout);
    FIELD(request, has_subscription);
    FIELD(request, subscription);
    FIELD(request, has_list);
    STRUCT(id);
    FIELD(id, bytes);
    STRUCT(reply);
    FIELD(reply, number);
    FIELD(reply, interval);
    FIELD(reply, epoch);
    FIELD(reply, count);
    FIELD(reply, slot);
    FIELD(reply, written);
    STRUCT(reading);
    FIELD(reading, verdict);
    FIELD(reading, end);
    STRUCT(extent);
    FIELD(extent, verdict);
    FIELD(extent, start);
    FIELD(extent, end);
    return 0;
}
