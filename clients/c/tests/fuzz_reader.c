/* Whatever bytes come, the reader stays within them: events, and whole datagrams at a client in the midst of a session.
 *
 * With libFuzzer (`make fuzz`) this goes on as long as one likes. Without it (`fuzz_reader TIMES`, as `make check` does)
 * it makes so many inputs of its own, always the same ones, out of good ones that it spoils. */
#include "../hags_internal.h"

#include <stdio.h>
#include <stdlib.h>
#include <string.h>

static void use(const hags_event *event) {
    volatile size_t sum = strlen(event->line) + event->length;
    const hags_members *members = event->what == HAGS_HEARD ? &event->heard.members : &event->noted.members;
    const hags_bytes *value = event->what == HAGS_HEARD ? &event->heard.value : &event->noted.value;
    switch (event->what) {
        case HAGS_HEARD:
        case HAGS_NOTED:
            for (size_t at = 0; at < members->count; at++) sum += members->list[at].join + members->list[at].node;
            for (size_t at = 0; at <= value->length; at++) sum += (unsigned char)value->bytes[at];
            sum += strlen(event->what == HAGS_HEARD ? event->heard.group : event->noted.client);
            break;
        case HAGS_ASKED: sum += strlen(event->asked.group); break;
        case HAGS_TOLD: sum += strlen(event->told.code) + strlen(event->told.detail); break;
        case HAGS_PUT:
            sum += strlen(event->put.entry) + strlen(event->put.group);
            sum += event->put.detail ? strlen(event->put.detail) : 0;
            sum += event->put.attributes.source ? strlen(event->put.attributes.source) : 0;
            for (size_t at = 0; at < event->put.providers.count; at++) sum += event->put.providers.list[at].join;
            for (size_t at = 0; at < event->put.value.length; at++) sum += (unsigned char)event->put.value.bytes[at];
            break;
        case HAGS_CAST:
            for (size_t at = 0; at < event->cast.value.length; at++) sum += (unsigned char)event->cast.value.bytes[at];
            break;
        case HAGS_OTHER: break;
    }
}

/* The input is events and datagrams, each behind two bytes with its length. They come to one client one after another. */
int LLVMFuzzerTestOneInput(const uint8_t *input, size_t size);
int LLVMFuzzerTestOneInput(const uint8_t *input, size_t size) {
    hags client = {.node = 1, .places = 1, .key = 7, .is_active = true, .number = 1, .length = 3, .line = "abc"};
    client.last_link = &client.first;
    client.question = 7;
    while (size >= 2) {
        size_t length = (size_t)number_in(input, 2);
        if (length > size - 2) length = size - 2;
        /* in memory of its own, so that a byte too far is seen */
        uint8_t *datagram = malloc(length ? length : 1);
        if (!datagram) abort();
        memcpy(datagram, input + 2, length);
        hags_event *event = hags_event_of((const char *)datagram, length);
        if (!event) abort();
        use(event);
        free(event);
        hags_take(&client, datagram, length);
        free(datagram);
        input += 2 + length;
        size -= 2 + length;
    }
    for (hags_event *event; (event = hags_next(&client)); free(event)) use(event);
    hags_forget_message(&client.newest);
    char *word[6], *text = client.reply;
    while (text && hags_next_line(&text, word, 6)) continue;
    free(client.reply);
    return 0;
}

#ifndef LIBFUZZER
static const char *const LINES[] = {
    "asked 1.5.7.1 1 db join",
    "heard 1.5.7.1 3.1.5 db 12 begin-attrs 1.5.7.1,2.9.65535.4294967295 =a%20%00b",
    "heard 1.5.7.1 3.1.5 db 0 reject - =",
    "cast 1.5.7.1 3.1.5/0 2 C=x%25",
    "told 1.5.7.1 0 LIST_FULL 4096/12",
    "noted 2.bob 3.1.5 HostMembership - 1.5,2.9 =",
    "put 1 3.1.5 db 4 once message 1.5.7.1/3 =hello",
    "put 1 3.1.5 db 4 begin join 1.5.7.1,2.5.8.2 phases=n batch=both default=reject limit=20 source=disk sphases=n slimit=7",
    "put 1 3.1.5 db 4 once expel 1.5.7.1/3 2.5.8.2,3.5.9.1",
    "put 1 3.1.5 db 4 once fail 1.5.7.1:died,2.5.8.2:gone",
    "put 1 3.1.5 db 4 phase 3.1.5/2 1 1.5.7.1=A,2.5.8.2=LR =new%20one",
    "put 1 3.1.5 db 4 late 3.1.5/2 9 1.5.7.1",
    "refused 1.a BAD_PARAMETER value",
    "refused 1.a",
};
enum { COUNT = sizeof LINES / sizeof *LINES, ROOM = 1 << 16 };

static uint64_t state = 1;

static uint32_t below(uint32_t most) {
    state = state * 6364136223846793005u + 1442695040888963407u;
    return (uint32_t)(state >> 33) % most;
}

/* The reply to the question that waits. */
static size_t make_reply(uint8_t *out) {
    static const char text[] = "hagsgr db leader=1 len=2 members=1.5.7.1,2.5.8.2 value=a%20b\nhagsgr e leader=? len=0\n";
    uint8_t *to = put_number(out, 0x0152500100, 5);
    to = put_number(to, 5, 4);
    to = put_number(to, below(50), 8);
    to = put_number(to, 1, 8);
    to = put_number(to, 0x52470117, 4);
    memset(to, 0, 12);
    to = put_number(to + 12, 7, 4);
    memcpy(to, text, sizeof text - 1);
    return (size_t)(to - out) + sizeof text - 1;
}

/* A datagram with a piece of a Down of some of these lines, or with a reply, or a line alone. */
static size_t make_one(uint8_t *out) {
    if (below(8) == 0) return make_reply(out);
    if (below(3) == 0) {
        const char *line = LINES[below(COUNT)];
        memcpy(out, line, strlen(line));
        return strlen(line);
    }
    uint8_t down[DOWN_HEAD + MOST_EVENTS * 200], *at = down;
    uint32_t events = below(MOST_EVENTS + 1), pieces = 1 + (below(4) == 0 ? below(3) : 0);
    at = put_number(at, 0x52530200, 4);
    at = put_number(at, 7, 4);
    at = put_number(at, 5 + (below(20) == 0), 4);
    at = put_number(at, below(3), 4);
    at = put_number(at, below(20) == 0 ? 3 : below(3), 1);
    at = put_number(at, 1 + below(30), 4);
    at = put_number(at, events, 1);
    while (events--) {
        const char *line = LINES[below(COUNT)];
        at = put_number(at, strlen(line), 2);
        memcpy(at, line, strlen(line));
        at += strlen(line);
    }
    uint8_t *to = put_number(out, 0x0152500100, 5);
    to = put_number(to, 5, 4);
    to = put_number(to, below(50), 8);
    to = put_number(to, below(pieces), 4);
    to = put_number(to, pieces, 4);
    size_t length = pieces > 1 && below(2) ? PIECE_DATA : (size_t)(at - down);
    memset(to, 'x', PIECE_DATA);
    memcpy(to, down, (size_t)(at - down) < length ? (size_t)(at - down) : length);
    return (size_t)(to - out) + length;
}

int main(int count, char **word) {
    static uint8_t input[ROOM];
    for (long times = count > 1 ? atol(word[1]) : 1000; times > 0; times--) {
        size_t size = 0;
        for (uint32_t parts = 1 + below(8); parts; parts--) {
            size_t length = make_one(input + size + 2);
            put_number(input + size, length, 2);
            size += 2 + length;
        }
        for (uint32_t spoiled = below(6); spoiled; spoiled--) input[below((uint32_t)size)] = (uint8_t)below(256);
        LLVMFuzzerTestOneInput(input, below(4) ? size : below((uint32_t)size + 1));
    }
    puts("the reader of the C client stays within what comes");
}
#endif
