/* Counts what the library copies in one call of each of events.h: its own memcpy and memmove stand in for the C library's. See docs/BENCHMARKS.md. */
#include <stdio.h>

#include "events.h"

static size_t copies, copied;

static void *copy(void *to, const void *from, size_t size) {
    unsigned char *into = to;
    const unsigned char *of = from;
    copies++;
    copied += size;
    if (into < of)
        for (size_t i = 0; i < size; i++) into[i] = of[i];
    else
        while (size-- > 0) into[size] = of[size];
    return to;
}

void *memcpy(void *restrict to, const void *restrict from, size_t size) { return copy(to, from, size); }

void *memmove(void *to, const void *from, size_t size) { return copy(to, from, size); }

static int count(const struct event *all, size_t length) {
    for (size_t i = 0; i < length; i++) {
        const struct event *event = &all[i];
        event->prepare();
        reply.number = 0;
        copies = copied = 0;
        event->run();
        printf("%s: %zu copies, %zu bytes\n", event->name, copies, copied);
        if (reply.number != event->number) {
            printf("  answered %u\n", (unsigned)reply.number);
            return 1;
        }
    }
    return 0;
}

int main(void) { return count(events, EVENTS) || count(readings, READINGS); }
