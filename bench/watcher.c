/* watcher SETTINGS NODE GROUP: a member of a group at the daemon of a node, by clients/c, which goes on until it is ended. At
 * each entry that it hears it writes the microseconds of the monotonic clock and how many members the group has. bench/peers
 * runs it. */
#define _POSIX_C_SOURCE 200809L
#include "../clients/c/hags.h"

#include <stdio.h>
#include <stdlib.h>
#include <time.h>

enum { MOST_SETTINGS = 1 << 16, MICRO = 1000000, IDLE = 1, PATIENCE = 60000 };

static void stop(const char *what, hags_result result) {
    fprintf(stderr, "watcher: %s: %s\n", what, hags_text(result));
    exit(1);
}

static void tell(size_t members) {
    struct timespec time;
    clock_gettime(CLOCK_MONOTONIC, &time);
    printf("%lld %zu\n", (long long)time.tv_sec * MICRO + time.tv_nsec / 1000, members);
    fflush(stdout);
}

int main(int words, char **word) {
    static char settings[MOST_SETTINGS];
    FILE *file = words == 4 ? fopen(word[1], "r") : NULL;
    if (!file || !fread(settings, 1, sizeof settings - 1, file)) stop("settings", HAGS_FAULT);
    fclose(file);
    hags *client = hags_new(settings, atoi(word[2]));
    if (!client) stop("settings", HAGS_BAD);
    hags_patience(client, PATIENCE);
    hags_idle(client, IDLE);
    hags_result result = hags_open(client, "watcher");
    if (result == HAGS_OK) result = hags_join(client, word[3], 1, NULL);
    if (result != HAGS_OK) stop("join", result);
    for (;;) {
        result = hags_wait(client, -1);
        if (result != HAGS_OK) stop("wait", result);
        for (hags_event *event; (event = hags_next(client)); free(event))
            if (event->what == HAGS_HEARD) tell(event->heard.members.count);
    }
}
