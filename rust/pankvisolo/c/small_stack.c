/* Every kind of event, and the range assignor, on a thread with the smallest stack that POSIX lets a program ask for, 16 KB where that is less. */
#define _POSIX_C_SOURCE 200809L
#include <limits.h>
#include <pthread.h>
#include <stdio.h>

#include "events.h"

static size_t run;

static void *all(void *unused) {
    (void)unused;
    for (run = 0; run < EVENTS; run++) {
        events[run].prepare();
        reply.number = 0;
        events[run].run();
        if (reply.number != events[run].number) break;
    }
    return NULL;
}

int main(void) {
    size_t size = 16384;
    pthread_t thread;
    pthread_attr_t attributes;
#ifdef PTHREAD_STACK_MIN
    if ((size_t)PTHREAD_STACK_MIN > size) size = (size_t)PTHREAD_STACK_MIN;
#endif
    if (pthread_attr_init(&attributes) != 0 || pthread_attr_setstacksize(&attributes, size) != 0 ||
        pthread_create(&thread, &attributes, all, NULL) != 0 || pthread_join(thread, NULL) != 0) {
        printf("no thread\n");
        return 1;
    }
    printf("%zu bytes: %zu of %zu events\n", size, run, EVENTS);
    return run != EVENTS;
}
