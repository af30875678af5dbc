/* The client as programs have it: its descriptors, its calls one after another, and what it has heard. */
#include "hags_internal.h"

#include <errno.h>
#include <poll.h>
#include <stdio.h>
#include <stdlib.h>
#include <string.h>
#include <sys/epoll.h>
#include <sys/random.h>
#include <sys/socket.h>
#include <sys/timerfd.h>
#include <unistd.h>

enum {
    MOST_DATAGRAM = 65536,
    RECEIVES = 64,            /* of one hags_dispatch */
    LONGEST = 20000,          /* microseconds from one Up to the next at rest, unless hags_idle says otherwise */
    MOST_IDLE = 1000,         /* milliseconds: daemons may end a session that was silent for as little as that */
    RECEIVE_BUFFER = 1 << 20, /* bytes */
    PATIENCE = 10000          /* milliseconds */
};

static void arm(hags *client) {
    struct itimerspec when = {0};
    if (client->is_active) {
        when.it_value.tv_sec = client->due / 1000000;
        when.it_value.tv_nsec = client->due % 1000000 * 1000 + 1;
    }
    timerfd_settime(client->timer, TFD_TIMER_ABSTIME, &when, NULL);
}

static bool open_descriptors(hags *client) {
    client->socket = socket(AF_INET, SOCK_DGRAM | SOCK_NONBLOCK | SOCK_CLOEXEC, 0);
    client->timer = timerfd_create(CLOCK_MONOTONIC, TFD_NONBLOCK | TFD_CLOEXEC);
    client->poll = epoll_create1(EPOLL_CLOEXEC);
    struct epoll_event readable = {.events = EPOLLIN};
    /* As much of it as the system gives: many events come as many pieces at once. */
    int room = RECEIVE_BUFFER;
    if (client->socket >= 0) setsockopt(client->socket, SOL_SOCKET, SO_RCVBUF, &room, sizeof room);
    return client->socket >= 0 && client->timer >= 0 && client->poll >= 0 &&
           !epoll_ctl(client->poll, EPOLL_CTL_ADD, client->socket, &readable) &&
           !epoll_ctl(client->poll, EPOLL_CTL_ADD, client->timer, &readable);
}

hags *hags_new(const char *settings, int node) {
    hags *client = calloc(1, sizeof *client);
    char *text = client ? strdup(settings) : NULL;
    if (!text) {
        free(client);
        errno = ENOMEM;
        return NULL;
    }
    client->node = node;
    client->patience = PATIENCE;
    client->longest = LONGEST;
    client->is_settled = true;
    client->socket = client->timer = client->poll = -1;
    client->last_link = &client->first;
    bool has_place = hags_read_settings(client, text);
    free(text);
    if (has_place && open_descriptors(client)) return client;
    int error = has_place ? errno : EINVAL;
    hags_delete(client);
    errno = error;
    return NULL;
}

static void drop_events(hags *client) {
    while (client->first) free(hags_next(client));
}

void hags_delete(hags *client) {
    if (!client) return;
    drop_events(client);
    hags_forget_message(&client->newest);
    free(client->reply);
    if (client->poll >= 0) close(client->poll);
    if (client->timer >= 0) close(client->timer);
    if (client->socket >= 0) close(client->socket);
    free(client);
}

hags_result hags_dispatch(hags *client) {
    uint8_t datagram[MOST_DATAGRAM];
    hags_result result = client->end;
    for (int it = 0; it < RECEIVES && client->is_active && result == HAGS_OK; it++) {
        ssize_t length = recv(client->socket, datagram, sizeof datagram, 0);
        if (length < 0) {
            if (errno == EINTR) continue;
            if (errno != EAGAIN && errno != EWOULDBLOCK) result = HAGS_FAULT;
            break;
        }
        result = hags_take(client, datagram, (size_t)length);
    }
    if (client->is_active && now() >= client->due) hags_send_up(client);
    arm(client);
    return result;
}

bool hags_wait_until(hags *client, int64_t end) {
    int64_t left = end < 0 ? 1000000 : end - now();
    if (left <= 0) return false;
    struct pollfd descriptor = {client->poll, POLLIN, 0};
    poll(&descriptor, 1, left > 1000000 ? 1000 : (int)((left + 999) / 1000));
    return true;
}

hags_result hags_settle(hags *client) {
    int64_t end = now() + (int64_t)client->patience * 1000;
    while (!client->is_settled) {
        hags_result result = hags_dispatch(client);
        if (result != HAGS_OK) return result;
        if (!client->is_settled && !hags_wait_until(client, end)) return HAGS_LATE;
    }
    return client->answer;
}

/* Makes a call whose line is in place, after the last one has its answer. */
static hags_result make(hags *client, const char *line, size_t length) {
    client->number++;
    client->length = length;
    memcpy(client->line, line, length);
    client->is_settled = false;
    client->answer = HAGS_LATE;
    client->refusal[0] = 0;
    client->asker = (hags_provider){0};
    client->request = 0;
    client->pause = SHORTEST;
    client->due = 0;
    return hags_settle(client);
}

/* Is a session open, and has its last call its answer? */
static hags_result ready(hags *client) {
    hags_result result = hags_settle(client);
    if (result == HAGS_LATE) return HAGS_BUSY;
    if (result == HAGS_NO_MEMORY || result == HAGS_FAULT) return result;
    return client->end != HAGS_OK ? client->end : client->is_open ? HAGS_OK : HAGS_BAD;
}

hags_result hags_call(hags *client, const char *line) {
    size_t length = strlen(line);
    hags_result result = ready(client);
    if (result != HAGS_OK) return result;
    if (!length || length > HAGS_MOST_LINE || client->number == UINT32_MAX) return HAGS_BAD;
    for (size_t at = 0; at < length; at++)
        if (line[at] < ' ' || line[at] > '~') return HAGS_BAD;
    return make(client, line, length);
}

hags_result hags_open(hags *client, const char *name) {
    size_t length = strlen(name);
    char line[32 + HAGS_MOST_NAME];
    if (client->is_open || !length || length > HAGS_MOST_NAME || strspn(name, HAGS_LETTERS) != length) return HAGS_BAD;
    if (client->is_active) return HAGS_BUSY;
    drop_events(client);
    uint32_t key;
    do {
        if (getrandom(&key, sizeof key, 0) != sizeof key) return HAGS_FAULT;
    } while (!key);
    memcpy(client->name, name, length + 1);
    client->key = key;
    client->number = client->heard = client->incarnation = 0;
    client->has_incarnation = client->is_closing = client->was_ended = false;
    client->end = HAGS_OK;
    client->is_active = true;
    client->unanswered = 0;
    client->last = now();
    int size = snprintf(line, sizeof line, "client %d %s -", client->node, name);
    return make(client, line, (size_t)size);
}

hags_result hags_close(hags *client) {
    char line[32 + HAGS_MOST_NAME];
    hags_result result = ready(client);
    if (result != HAGS_OK) return result;
    client->is_closing = true;
    int size = snprintf(line, sizeof line, "goodbye %s", client->name);
    return make(client, line, (size_t)size);
}

hags_event *hags_next(hags *client) {
    queued *row = client->first;
    if (!row) return NULL;
    hags_event *event = row->event;
    client->first = row->next;
    if (!client->first) client->last_link = &client->first;
    free(row);
    return event;
}

hags_result hags_wait(hags *client, int milliseconds) {
    int64_t end = milliseconds < 0 ? -1 : now() + (int64_t)milliseconds * 1000;
    for (;;) {
        hags_result result = client->is_active ? hags_dispatch(client) : client->end;
        if (client->first) return HAGS_OK;
        if (result != HAGS_OK) return result;
        if (!client->is_active) return HAGS_BAD;
        if (!hags_wait_until(client, end)) return HAGS_LATE;
    }
}

const char *hags_text(hags_result result) {
    static const char *const texts[] = {
        "done",
        "the daemon refused it",
        "no answer came in time; see that the daemon runs with --remote at the address and port of the settings",
        "the call before it has no answer yet",
        "no such call can be made, or no session is open",
        "the daemon was started anew, or has ended the session after a silence; begin another one, and join again",
        "the daemon takes no more clients; use another node",
        "memory has run out",
        "the system failed",
    };
    return (unsigned)result < sizeof texts / sizeof *texts ? texts[result] : "no such result";
}

bool hags_is_open(const hags *client) { return client->is_open; }
void hags_patience(hags *client, int milliseconds) { client->patience = milliseconds; }
void hags_idle(hags *client, int milliseconds) {
    client->longest = 1000 * (int64_t)(milliseconds < 1 ? 1 : milliseconds > MOST_IDLE ? MOST_IDLE : milliseconds);
}
hags_result hags_answer(const hags *client) { return client->is_settled ? client->answer : HAGS_LATE; }
const char *hags_refusal(const hags *client) { return client->refusal; }
hags_provider hags_asker(const hags *client) { return client->asker; }
uint32_t hags_request(const hags *client) { return client->request; }
int hags_fd(const hags *client) { return client->poll; }
long hags_silence(const hags *client) { return (long)((now() - client->last) / 1000); }
bool hags_was_ended(const hags *client) { return client->was_ended; }
uint32_t hags_incarnation(const hags *client) { return client->incarnation; }
