/* cpg MODE GROUP BYTES SECONDS: a member of a closed process group of the corosync on this host. MODE is
 *
 *   flood   sends messages of so many bytes as fast as they are taken, and after a second counts for so long those of its
 *           own that are delivered to it; writes how many
 *   ping    sends the next one when the last one was delivered; writes how many, and the median and the 99th percentile of
 *           the microseconds from a send to the delivery
 *   watch   sends nothing, and writes at each change of the group the microseconds of the monotonic clock and how many
 *           members it has
 *   listen  sends nothing and writes nothing
 *
 * bench/peers runs it, beside what it measures of hags. */
#define _POSIX_C_SOURCE 200809L
#include <corosync/cpg.h>

#include <poll.h>
#include <stdbool.h>
#include <stdint.h>
#include <stdio.h>
#include <stdlib.h>
#include <string.h>
#include <time.h>
#include <unistd.h>

enum { MOST_BYTES = 4096, MOST_TIMES = 1 << 22, MICRO = 1000000, AT_ONCE = 32, TRIES = 3000 };

static long delivered;
static bool tells;
static uint32_t own_node;

static int64_t now(void) {
    struct timespec time;
    clock_gettime(CLOCK_MONOTONIC, &time);
    return (int64_t)time.tv_sec * MICRO + time.tv_nsec / 1000;
}

static void stop(const char *what, cs_error_t error) {
    fprintf(stderr, "cpg: %s: error %d\n", what, (int)error);
    exit(1);
}

static void deliver(cpg_handle_t handle, const struct cpg_name *group, uint32_t node, uint32_t process, void *bytes,
                    size_t length) {
    (void)handle, (void)group, (void)bytes, (void)length;
    delivered += node == own_node && process == (uint32_t)getpid();
}

static void change(cpg_handle_t handle, const struct cpg_name *group, const struct cpg_address *members, size_t count,
                   const struct cpg_address *left, size_t gone, const struct cpg_address *joined, size_t come) {
    (void)handle, (void)group, (void)members, (void)left, (void)gone, (void)joined, (void)come;
    if (!tells) return;
    printf("%lld %zu\n", (long long)now(), count);
    fflush(stdout);
}

static void dispatch(cpg_handle_t handle) {
    cs_error_t error = cpg_dispatch(handle, CS_DISPATCH_ALL);
    if (error != CS_OK && error != CS_ERR_TRY_AGAIN) stop("dispatch", error);
}

/* Was it taken? Where corosync is full it is not, and is to be sent again. */
static bool send_one(cpg_handle_t handle, int bytes) {
    static char text[MOST_BYTES];
    struct iovec part = {text, (size_t)bytes};
    cs_error_t error = cpg_mcast_joined(handle, CPG_TYPE_AGREED, &part, 1);
    if (error != CS_OK && error != CS_ERR_TRY_AGAIN) stop("send", error);
    return error == CS_OK;
}

static long flood(cpg_handle_t handle, int bytes, int64_t microseconds) {
    int64_t end = now() + microseconds;
    long before = delivered;
    while (now() < end) {
        for (int sent = 0; sent < AT_ONCE && send_one(handle, bytes); sent++) continue;
        dispatch(handle);
    }
    return delivered - before;
}

static int compare(const void *one, const void *other) {
    int64_t difference = *(const int64_t *)one - *(const int64_t *)other;
    return (difference > 0) - (difference < 0);
}

static long ping(cpg_handle_t handle, int fd, int bytes, int64_t microseconds, int64_t *times) {
    int64_t end = now() + microseconds;
    long count = 0;
    while (now() < end && count < MOST_TIMES) {
        int64_t began = now();
        long wanted = delivered + 1;
        while (!send_one(handle, bytes)) dispatch(handle);
        while (delivered < wanted) {
            struct pollfd readable = {fd, POLLIN, 0};
            poll(&readable, 1, 1000);
            dispatch(handle);
        }
        times[count++] = now() - began;
    }
    qsort(times, (size_t)count, sizeof *times, compare);
    return count;
}

int main(int words, char **word) {
    if (words != 5) return 2;
    const char *mode = word[1];
    int bytes = atoi(word[3]), fd;
    if (bytes < 1 || bytes > MOST_BYTES) return 2;
    int64_t microseconds = (int64_t)(atof(word[4]) * MICRO);
    int64_t *times = malloc(MOST_TIMES * sizeof *times);
    cpg_callbacks_t callbacks = {deliver, change};
    cpg_handle_t handle;
    cs_error_t error;
    if (!times) return 1;
    /* corosync may just be starting */
    for (int it = 0; (error = cpg_initialize(&handle, &callbacks)) != CS_OK; it++) {
        if (it == TRIES) stop("initialize", error);
        nanosleep(&(struct timespec){0, 10000000}, NULL);
    }
    struct cpg_name group = {.length = (uint32_t)strlen(word[2])};
    memcpy(group.value, word[2], group.length);
    tells = !strcmp(mode, "watch");
    while ((error = cpg_join(handle, &group)) == CS_ERR_TRY_AGAIN) nanosleep(&(struct timespec){0, 10000000}, NULL);
    if (error != CS_OK) stop("join", error);
    if ((error = cpg_local_get(handle, &own_node)) != CS_OK) stop("node", error);
    if ((error = cpg_fd_get(handle, &fd)) != CS_OK) stop("descriptor", error);
    if (!strcmp(mode, "flood")) {
        flood(handle, bytes, MICRO);
        printf("%ld\n", flood(handle, bytes, microseconds));
    } else if (!strcmp(mode, "ping")) {
        ping(handle, fd, bytes, MICRO, times);
        long count = ping(handle, fd, bytes, microseconds, times);
        printf("%ld %lld %lld\n", count, count ? (long long)times[count / 2] : 0, count ? (long long)times[count * 99 / 100] : 0);
    } else {
        for (int64_t end = now() + microseconds; now() < end;) {
            struct pollfd readable = {fd, POLLIN, 0};
            poll(&readable, 1, 100);
            dispatch(handle);
        }
    }
    cpg_finalize(handle);
    free(times);
}
