/* What the files of the C client share, and programs that use it do not see:
 *
 *   hags.c            the client as programs have it, and its descriptors
 *   hags_session.c    a session: Ups that go out, and Downs that come back in pieces
 *   hags_event.c      lines that were heard, taken apart
 *   hags_calls.c      calls, spelled as lines
 *   hags_look.c       questions about how things stand
 *   hags_settings.c   where settings have the daemon */
#ifndef HAGS_INTERNAL_H
#define HAGS_INTERNAL_H

#ifndef _GNU_SOURCE
#define _GNU_SOURCE
#endif
#include "hags.h"

#include <netinet/in.h>
#include <time.h>

/* The bytes that names have. */
#define HAGS_LETTERS "ABCDEFGHIJKLMNOPQRSTUVWXYZabcdefghijklmnopqrstuvwxyz0123456789_-."

enum {
    MOST_NODES = 32,
    MOST_NETWORKS = 4,
    NETWORK_BYTE = 1,
    PIECE_HEAD = 24,
    PIECE_DATA = 1176,
    UP_HEAD = 18,
    DOWN_HEAD = 22,
    MOST_EVENTS = 16, /* of a Down */
    MOST_DOWN = DOWN_HEAD + MOST_EVENTS * (2 + 65535),
    MOST_PIECES = (MOST_DOWN + PIECE_DATA - 1) / PIECE_DATA,
    SHORTEST = 1000 /* microseconds from one Up to the next, while something happens */
};

/* An event that was heard and not read. */
typedef struct queued {
    struct queued *next;
    hags_event *event;
} queued;

/* The daemon's newest message, and which pieces of it came. */
typedef struct {
    uint32_t incarnation;
    uint64_t number;
    uint32_t count, missing;
    size_t length;
    uint8_t *bytes;
    bool has[MOST_PIECES];
} message;

struct hags {
    int node, places;
    struct { uint8_t network; struct sockaddr_in at; } place[MOST_NETWORKS];
    int socket, timer, poll;
    int at;              /* the place to which Ups go */
    unsigned unanswered; /* how many of them have had no answer */
    uint64_t sent;
    message newest;
    char name[HAGS_MOST_NAME + 1];
    int patience;
    int64_t due, pause, last; /* when the next Up is due, how long to wait after it, when the daemon was heard */
    int64_t longest;          /* how long it may be to the next Up */

    /* of this session */
    bool is_active, is_open, is_closing;
    hags_result end; /* HAGS_LOST or HAGS_FULL where it ended so */
    uint32_t key, incarnation, number, heard;
    bool has_incarnation, is_settled, was_ended;
    hags_result answer;
    char line[HAGS_MOST_LINE + 1];
    size_t length; /* of the line; 0 once it has its answer */
    char refusal[256];
    hags_provider asker;
    uint32_t request;
    queued *first, **last_link;

    /* of hags_look */
    uint32_t question; /* 0 where none waits for its reply */
    char *reply;
};

/* This moment, in microseconds. */
static inline int64_t now(void) {
    struct timespec time;
    clock_gettime(CLOCK_MONOTONIC, &time);
    return (int64_t)time.tv_sec * 1000000 + time.tv_nsec / 1000;
}

/* Numbers of messages, their highest byte first. */
static inline uint8_t *put_number(uint8_t *to, uint64_t number, int bytes) {
    while (bytes--) *to++ = (uint8_t)(number >> (8 * bytes));
    return to;
}

static inline uint64_t number_in(const uint8_t *from, int bytes) {
    uint64_t number = 0;
    while (bytes--) number = number << 8 | *from++;
    return number;
}

#pragma GCC visibility push(hidden)

/* A word that is the digits, without a needless zero, of a number of at most `most`. NULL is none. */
bool hags_number(char *word, uint64_t most, uint32_t *number);

/* The next line of a text that is one to be read, with at most so many words of it, each cut off; how many there are. */
int hags_next_line(char **text, char **word, int most);

/* Where these settings have the daemon of the client's node, by the least of its networks first. The text is cut. */
bool hags_read_settings(hags *client, char *text);

/* Sends a message of one piece; and the Up of this moment. */
void hags_send(hags *client, const uint8_t *bytes, size_t length);
void hags_send_up(hags *client);

/* Takes a datagram that came, whatever it is. HAGS_LOST and HAGS_FULL end the session. */
hags_result hags_take(hags *client, const uint8_t *datagram, size_t length);

void hags_forget_message(message *it);

/* Waits until something comes or is due, or this moment is over; less than 0 is none. False where it is over. */
bool hags_wait_until(hags *client, int64_t end);

#pragma GCC visibility pop
#endif
