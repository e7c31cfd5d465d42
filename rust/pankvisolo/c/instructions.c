/* Runs one event of events.h once, by its name, in `measured`, so that a profiler counts that call alone. See docs/BENCHMARKS.md. */
#include <stdio.h>

#include "events.h"

static volatile uint32_t answered;

/* The store keeps the call from being the function's last act, after which the function would be left already. */
__attribute__((noinline)) void measured(const struct event *event) {
    event->run();
    answered = reply.number;
}

int main(int count, char **words) {
    for (size_t i = 0; i < EVENTS; i++) {
        const struct event *event = &events[i];
        if (count != 2 || strcmp(words[1], event->name) != 0) continue;
        event->prepare();
        measured(event);
        return answered != event->number;
    }
    fprintf(stderr, "usage: instructions EVENT, one of these:\n");
    for (size_t i = 0; i < EVENTS; i++) fprintf(stderr, "  %s\n", events[i].name);
    return 2;
}
