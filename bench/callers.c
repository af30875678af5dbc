/* callers SETTINGS CLIENTS BYTES SECONDS [GROUPS]: so many clients of clients/c, all in this process and at the three daemons
 * of the settings by turns, which are the members of one group, or of so many groups each three in turn, and each set its
 * value again and again, with one call outstanding each. After a second they are measured, and one line is written: calls,
 * the entries heard by who heard fewest, the median and the 99th percentile of the microseconds from a call to the moment
 * when its caller hears it, calls that were refused, and the microseconds of processor time that this process took.
 * bench/clients and bench/peers run it. */
#define _POSIX_C_SOURCE 200809L
#include "../clients/c/hags.h"

#include <stdio.h>
#include <stdlib.h>
#include <string.h>
#include <sys/epoll.h>
#include <time.h>

enum { NODES = 3, MOST_CLIENTS = 64, MOST_BYTES = 1024, MOST_CALLS = 1 << 22, MOST_SETTINGS = 1 << 16, MICRO = 1000000 };

typedef struct {
    hags *client;
    int index;
    char group[16];
    long calls, heard;
    bool is_waiting, is_member;
    int64_t began;
    hags_provider provider;
    char value[MOST_BYTES + 1];
    size_t members;
} caller;

static int bytes, groups = 1;
static long refused, count;
static int64_t *times;

static int64_t now(clockid_t clock) {
    struct timespec time;
    clock_gettime(clock, &time);
    return (int64_t)time.tv_sec * MICRO + time.tv_nsec / 1000;
}

static void stop(const char *what, hags_result result) {
    fprintf(stderr, "callers: %s: %s\n", what, hags_text(result));
    exit(1);
}

static void set_value(caller *it) {
    int length = snprintf(it->value, sizeof it->value, "%d.%ld.", it->index, ++it->calls);
    if (length < bytes) memset(it->value + length, 'x', (size_t)(bytes - length));
    it->is_waiting = true;
    it->began = now(CLOCK_MONOTONIC);
    hags_result result = hags_state(it->client, it->group, false, (hags_bytes){(size_t)bytes, it->value});
    if (result != HAGS_LATE && result != HAGS_OK) stop("state", result);
}

static void take(caller *it, const hags_event *event) {
    if (event->what == HAGS_TOLD) {
        refused++;
        it->is_waiting = false;
    }
    if (event->what != HAGS_HEARD) return;
    const hags_heard *heard = &event->heard;
    it->heard++;
    it->members = heard->members.count;
    bool is_own = it->is_waiting && heard->step == HAGS_ONCE && heard->kind == HAGS_STATE &&
                  heard->value.length == (size_t)bytes && !memcmp(heard->value.bytes, it->value, (size_t)bytes);
    if (!is_own) return;
    if (count < MOST_CALLS) times[count++] = now(CLOCK_MONOTONIC) - it->began;
    it->is_waiting = false;
}

/* Sends and receives for a caller, and sets its next value where the last one was heard. */
static void act(caller *it, bool sets) {
    hags_result result = hags_dispatch(it->client);
    if (result != HAGS_OK) stop("dispatch", result);
    for (hags_event *event; (event = hags_next(it->client)); free(event)) take(it, event);
    hags_result answer = hags_answer(it->client);
    if (it->is_waiting && answer == HAGS_REFUSED) {
        refused++;
        it->is_waiting = false;
    }
    if (sets && !it->is_waiting && answer != HAGS_LATE) set_value(it);
}

/* How many of so many clients are members of the group of this one. */
static int members_of(int index, int clients) {
    int count = 0;
    for (int at = 0; at < clients; at++) count += at / NODES % groups == index / NODES % groups;
    return count;
}

/* Lets all go on for so long, or until each knows all members of its group. */
static void pump(int all, caller *callers, int clients, int64_t microseconds, bool sets) {
    struct epoll_event ready[MOST_CLIENTS];
    int64_t end = now(CLOCK_MONOTONIC) + microseconds;
    while (now(CLOCK_MONOTONIC) < end) {
        int found = epoll_wait(all, ready, MOST_CLIENTS, 20);
        for (int at = 0; at < found; at++) act(ready[at].data.ptr, sets);
        int complete = 0;
        for (int at = 0; at < clients; at++) complete += callers[at].members == (size_t)members_of(at, clients);
        if (!sets && complete == clients) return;
    }
}

static int compare(const void *one, const void *other) {
    int64_t difference = *(const int64_t *)one - *(const int64_t *)other;
    return (difference > 0) - (difference < 0);
}

static void begin(caller *it, int index, const char *settings, int all) {
    char name[HAGS_MOST_NAME + 1];
    snprintf(name, sizeof name, "c%d", index);
    *it = (caller){.index = index, .client = hags_new(settings, 1 + index % NODES)};
    snprintf(it->group, sizeof it->group, "bench%d", index / NODES % groups);
    if (!it->client) stop("settings", HAGS_BAD);
    hags_patience(it->client, 60000);
    hags_result result = hags_open(it->client, name);
    if (result == HAGS_OK) result = hags_join(it->client, it->group, (unsigned)index + 1, NULL);
    if (result != HAGS_OK) stop("join", result);
    hags_patience(it->client, 0);
    struct epoll_event readable = {.events = EPOLLIN, .data.ptr = it};
    if (epoll_ctl(all, EPOLL_CTL_ADD, hags_fd(it->client), &readable)) stop("epoll", HAGS_FAULT);
}

int main(int words, char **word) {
    static char settings[MOST_SETTINGS];
    static caller callers[MOST_CLIENTS];
    FILE *file = words == 5 || words == 6 ? fopen(word[1], "r") : NULL;
    if (!file || !fread(settings, 1, sizeof settings - 1, file)) stop("settings", HAGS_FAULT);
    fclose(file);
    int clients = atoi(word[2]);
    bytes = atoi(word[3]);
    if (words == 6) groups = atoi(word[5]);
    bool are_fit = clients >= 1 && clients <= MOST_CLIENTS && bytes >= 20 && bytes <= MOST_BYTES && groups >= 1;
    if (!are_fit) stop("words", HAGS_BAD);
    times = malloc(MOST_CALLS * sizeof *times);
    int all = epoll_create1(0);
    if (!times || all < 0) stop("memory", HAGS_NO_MEMORY);
    for (int at = 0; at < clients; at++) begin(&callers[at], at, settings, all);
    pump(all, callers, clients, 30 * (int64_t)MICRO, false);
    for (int at = 0; at < clients; at++) act(&callers[at], true);
    pump(all, callers, clients, MICRO, true);
    count = refused = 0;
    for (int at = 0; at < clients; at++) callers[at].heard = 0;
    int64_t busy = now(CLOCK_PROCESS_CPUTIME_ID);
    pump(all, callers, clients, (int64_t)(atof(word[4]) * MICRO), true);
    busy = now(CLOCK_PROCESS_CPUTIME_ID) - busy;
    long fewest = callers[0].heard;
    for (int at = 1; at < clients; at++) fewest = callers[at].heard < fewest ? callers[at].heard : fewest;
    qsort(times, (size_t)count, sizeof *times, compare);
    printf("%ld %ld %ld %ld %ld %ld\n", count, fewest, count ? (long)times[count / 2] : 0,
           count ? (long)times[count * 99 / 100] : 0, refused, (long)busy);
    for (int at = 0; at < clients; at++) hags_delete(callers[at].client);
    free(times);
}
