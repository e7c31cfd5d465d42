/*
 * Measures how much stack one call of each event, of the range assignor and of each function of the journal takes,
 * and fails where one takes more than the header says.
 * Each runs on a thread whose stack is memory of this program: what lies below the thread's own frame is
 * painted before the call and looked at after it. See docs/BENCHMARKS.md.
 */
#define _POSIX_C_SOURCE 200809L
#include <pthread.h>
#include <stdio.h>

#include "events.h"

#define PAINT 0xA5

static _Alignas(4096) unsigned char stack[1 << 18];
static size_t taken;

/* The stack below this function's frame, but for the little that it uses itself. */
static void *measure(void *of) {
    const struct event *event = of;
    volatile unsigned char here = 0;
    size_t top = (size_t)(&here - stack) - 256;
    volatile unsigned char *below = stack;
    for (size_t i = 0; i < top; i++) below[i] = PAINT;
    event->run();
    size_t lowest = 0;
    while (lowest < top && below[lowest] == PAINT) lowest++;
    taken = top + 256 - lowest;
    /* The group that comes back stands in the caller's frame. */
    if (event->run == make) taken -= sizeof group;
    return NULL;
}

static size_t taken_by(struct event event) {
    pthread_t thread;
    pthread_attr_t attributes;
    event.prepare();
    reply.number = 0;
    if (pthread_attr_init(&attributes) != 0 || pthread_attr_setstack(&attributes, stack, sizeof stack) != 0 ||
        pthread_create(&thread, &attributes, measure, &event) != 0 || pthread_join(thread, NULL) != 0) {
        printf("no thread\n");
        return 0;
    }
    return taken;
}

static int measure_all(const struct event *all, size_t length, size_t allowed) {
    size_t most = 0;
    for (size_t i = 0; i < length; i++) {
        size_t bytes = taken_by(all[i]);
        printf("%s: %zu bytes\n", all[i].name, bytes);
        if (bytes == 0 || reply.number != all[i].number) {
            printf("  answered %u\n", (unsigned)reply.number);
            return 1;
        }
        if (bytes > most) most = bytes;
    }
    printf("at most: %zu bytes\n", most);
    return most > allowed;
}

int main(void) {
    return measure_all(events, EVENTS, PANKVISOLO_STACK) || measure_all(readings, READINGS, PANKVISOLO_JOURNAL_STACK);
}
