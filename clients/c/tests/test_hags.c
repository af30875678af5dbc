/* The client against a daemon that this test plays itself, datagram by datagram, on loopback. */
#define _GNU_SOURCE
#include "../hags.h"

#include <arpa/inet.h>
#include <errno.h>
#include <poll.h>
#include <stdio.h>
#include <stdlib.h>
#include <string.h>
#include <sys/socket.h>
#include <unistd.h>

#define CHECK(what) ((what) ? (void)0 : fail(__LINE__, #what))
enum { HEAD = 25, WAIT = 20000, LONGEST = 120 /* seconds */ };

static void fail(int line, const char *what) {
    fprintf(stderr, "test_hags.c:%d: %s\n", line, what);
    exit(1);
}

/* The daemon of node 1, the last Up that it got, and whom it answers. */
static struct {
    int socket;
    struct sockaddr_in client;
    uint8_t up[1300];
    size_t length;
    uint64_t sent;
    uint32_t incarnation;
} played;

static uint32_t number_at(const uint8_t *at) {
    return (uint32_t)at[0] << 24 | (uint32_t)at[1] << 16 | (uint32_t)at[2] << 8 | at[3];
}

static void put_number(uint8_t *at, uint32_t number) {
    for (int it = 3; it >= 0; it--, number >>= 8) at[it] = (uint8_t)number;
}

static uint32_t up_number(void) { return number_at(played.up + HEAD + 8); }
static uint32_t up_heard(void) { return number_at(played.up + HEAD + 12); }

static const char *up_line(void) {
    played.up[played.length] = 0;
    return (const char *)played.up + HEAD + 18;
}

/* Lets the client send, and takes its next Up. */
static void take_up(hags *client) {
    for (int it = 0; it < WAIT; it++) {
        hags_dispatch(client);
        socklen_t size = sizeof played.client;
        ssize_t length = recvfrom(played.socket, played.up, sizeof played.up - 1, MSG_DONTWAIT,
                                  (struct sockaddr *)&played.client, &size);
        if (length > 0) {
            played.length = (size_t)length;
            return;
        }
        struct pollfd descriptor = {hags_fd(client), POLLIN, 0};
        poll(&descriptor, 1, 10);
    }
    fail(__LINE__, "an Up comes");
}

/* Goes on until an Up comes that is so far. */
static void take_up_with(hags *client, uint32_t number, uint32_t heard) {
    do take_up(client);
    while (up_number() != number || up_heard() != heard);
}

/* A Down with these events, which are separated by line feeds; how long it is. */
static size_t down_of(uint8_t *down, uint32_t done, int answer, uint32_t first, const char *events) {
    uint8_t *at = down + 22;
    int count = 0;
    memcpy(down, "RS\2\0", 4);
    memcpy(down + 4, played.up + HEAD + 4, 4);
    put_number(down + 8, played.incarnation);
    put_number(down + 12, done);
    down[16] = (uint8_t)answer;
    put_number(down + 17, first);
    for (; *events; count++) {
        size_t length = strcspn(events, "\n");
        *at++ = (uint8_t)(length >> 8);
        *at++ = (uint8_t)length;
        memcpy(at, events, length);
        at += length;
        events += length + (events[length] == '\n');
    }
    down[21] = (uint8_t)count;
    return (size_t)(at - down);
}

static void send_piece(uint32_t index, uint32_t count, const uint8_t *data, size_t length) {
    uint8_t datagram[2000] = {1, 'R', 'P', 1};
    put_number(datagram + 5, played.incarnation);
    put_number(datagram + 13, (uint32_t)played.sent);
    put_number(datagram + 17, index);
    put_number(datagram + 21, count);
    memcpy(datagram + HEAD, data, length);
    sendto(played.socket, datagram, HEAD + length, 0, (struct sockaddr *)&played.client, sizeof played.client);
}

static void send_down(uint32_t done, int answer, uint32_t first, const char *events) {
    uint8_t down[1200];
    size_t length = down_of(down, done, answer, first, events);
    played.sent++;
    send_piece(0, 1, down, length);
}

static hags *client_of(const char *more) {
    char settings[400];
    struct sockaddr_in at = {.sin_family = AF_INET, .sin_addr.s_addr = htonl(INADDR_ANY)};
    socklen_t size = sizeof at;
    memset(&played, 0, sizeof played);
    played.incarnation = 5;
    do {
        if (played.socket) close(played.socket);
        at.sin_port = 0;
        played.socket = socket(AF_INET, SOCK_DGRAM, 0);
        CHECK(!bind(played.socket, (struct sockaddr *)&at, sizeof at));
        CHECK(!getsockname(played.socket, (struct sockaddr *)&at, &size));
    } while (ntohs(at.sin_port) > 65000);
    snprintf(settings, sizeof settings, "# a test\nnode 1\nnode  2\n%sadapter 1 2 127.0.0.1\nport %d\nbegin\nport 9\n", more,
             ntohs(at.sin_port) - 1);
    hags *client = hags_new(settings, 1);
    CHECK(client);
    hags_patience(client, 0);
    return client;
}

/* Goes on until the last call has its answer. */
static void settle(hags *client) {
    while (hags_answer(client) == HAGS_LATE) CHECK(hags_dispatch(client) == HAGS_OK);
}

static void open_client(hags *client) {
    CHECK(hags_open(client, "a") == HAGS_LATE);
    while (hags_answer(client) == HAGS_LATE) { /* an Up may be one of a session before */
        take_up(client);
        send_down(1, 1, 1, "");
        hags_dispatch(client);
    }
    CHECK(hags_answer(client) == HAGS_OK && hags_is_open(client) && hags_incarnation(client) == 5);
}

static void end(hags *client) {
    hags_delete(client);
    close(played.socket);
}

/* The next event, as its line. */
static void check_next(hags *client, const char *line) {
    hags_event *event = hags_next(client);
    CHECK(event && !strcmp(event->line, line));
    free(event);
}

/* The two datagrams that docs/remote-sessions.md spells, but for the key. */
static void test_bytes(void) {
    static const uint8_t up[] = {1, 0x52, 0x50, 0, 0, 0, 0, 0, 0, 0, 0, 0, 0, 0, 0, 0, 1, 0, 0, 0, 0, 0, 0, 0, 1,
                                 0x52, 0x53, 1, 0, 9, 9, 9, 9, 0, 0, 0, 1, 0, 0, 0, 0, 0, 12,
                                 'c', 'l', 'i', 'e', 'n', 't', ' ', '1', ' ', 'a', ' ', '-'};
    hags *client = client_of("adapter 1 1 127.0.0.1\nadapter 2 1 127.0.0.2\n");
    CHECK(hags_open(client, "a") == HAGS_LATE);
    take_up(client);
    memset(played.up + HEAD + 4, 9, 4);
    CHECK(played.length == sizeof up && !memcmp(played.up, up, sizeof up));
    end(client);
}

/* Each Up goes again until it is answered, and its socket is readable as it is due. */
static void test_repeats(void) {
    hags *client = client_of("");
    open_client(client);
    CHECK(hags_call(client, "join a db 7") == HAGS_LATE && hags_answer(client) == HAGS_LATE);
    CHECK(hags_call(client, "join a db 7") == HAGS_BUSY);
    for (int it = 0; it < 5; it++) {
        take_up_with(client, 2, 0);
        CHECK(!strcmp(up_line(), "join a db 7"));
    }
    send_down(2, 1, 1, "asked 1.5.7.1 1 db join\nheard 1.5.7.1 1.1.5 db 0 once-join 1.5.7.1 =");
    take_up_with(client, 2, 2);
    CHECK(!*up_line() && hags_answer(client) == HAGS_OK && hags_request(client) == 1 && hags_asker(client).instance == 7);
    check_next(client, "asked 1.5.7.1 1 db join");
    check_next(client, "heard 1.5.7.1 1.1.5 db 0 once-join 1.5.7.1 =");
    CHECK(!hags_next(client) && hags_wait(client, 30) == HAGS_LATE);
    end(client);
}

/* Events are heard once and without a gap, whatever is repeated or comes late. */
static void test_order(void) {
    hags *client = client_of("");
    open_client(client);
    send_down(1, 1, 2, "told 1.5.7.1 2 COLLIDE 1.1.5/2");
    send_down(1, 1, 1, "told 1.5.7.1 1 DISSOLVED\ntold 1.5.7.1 2 COLLIDE 1.1.5/2");
    send_down(1, 1, 1, "told 1.5.7.1 1 DISSOLVED");
    played.sent = 1; /* a message before the newest one */
    send_down(1, 1, 3, "told 1.5.7.1 3 DISSOLVED");
    played.sent = 9;
    take_up_with(client, 1, 2);
    check_next(client, "told 1.5.7.1 1 DISSOLVED");
    check_next(client, "told 1.5.7.1 2 COLLIDE 1.1.5/2");
    CHECK(!hags_next(client));
    end(client);
}

/* Where sixteen events come, the call is answered once there are no more. */
static void test_many_events(void) {
    char sixteen[16 * 32] = "";
    hags *client = client_of("");
    open_client(client);
    CHECK(hags_call(client, "subscribe a db") == HAGS_LATE);
    take_up(client);
    for (int it = 1; it <= 16; it++) sprintf(sixteen + strlen(sixteen), "told 1.5.7.1 %d DISSOLVED\n", it);
    send_down(2, 2, 1, sixteen);
    take_up_with(client, 2, 16);
    CHECK(hags_answer(client) == HAGS_LATE);
    send_down(2, 2, 17, "refused 1.a BAD_PARAMETER subscription");
    take_up_with(client, 2, 17);
    CHECK(hags_answer(client) == HAGS_REFUSED && !strcmp(hags_refusal(client), "BAD_PARAMETER subscription"));
    CHECK(hags_call(client, "leave a db 1") == HAGS_LATE && !*hags_refusal(client));
    end(client);
}

/* Pieces come in any order, between others, and more than once. */
static void test_pieces(void) {
    uint8_t *down = malloc(200000);
    char *line = malloc(60100);
    hags *client = client_of("");
    open_client(client);
    memset(line, 'x', 60000);
    memcpy(line, "told 1.5.7.1 1 ", 15);
    line[60000] = 0;
    size_t length = down_of(down, 1, 1, 1, line);
    uint32_t count = (uint32_t)((length + 1175) / 1176);
    played.sent = 7;
    for (uint32_t it = count; it-- > 0;) {
        size_t size = it + 1 == count ? length - it * (size_t)1176 : 1176;
        send_piece(it, count, down + it * (size_t)1176, size);
        send_piece(it, count, down + it * (size_t)1176, size);
        played.sent = 6;
        send_piece(it, count, down, 1176);
        played.sent = 7;
        send_piece(it, count + 1, down, 1176);
        send_piece(it, count, down, 1000);
        CHECK(hags_dispatch(client) == HAGS_OK);
    }
    take_up_with(client, 1, 1);
    hags_event *event = hags_next(client);
    CHECK(event && event->what == HAGS_TOLD && event->length == 60000 && strlen(event->told.code) == 60000 - 15);
    free(event);
    free(line);
    free(down);
    end(client);
}

/* What is no Down of this client changes nothing. */
static void test_strays(void) {
    uint8_t down[400];
    hags *client = client_of("");
    open_client(client);
    CHECK(hags_call(client, "leave a db 1") == HAGS_LATE);
    take_up(client);
    size_t length = down_of(down, 2, 1, 1, "told 1.5.7.1 1 DISSOLVED");
    for (size_t cut = 1; cut < length; cut++) {
        played.sent++;
        send_piece(0, 1, down, cut);
        CHECK(hags_dispatch(client) == HAGS_OK);
    }
    const struct { size_t at; uint8_t byte; } wrong[] = {{0, 'X'}, {2, 3}, {3, 1}, {7, (uint8_t)(down[7] + 1)}, {16, 4}, {21, 2}, {21, 17}, {22, 9}};
    for (size_t it = 0; it < sizeof wrong / sizeof *wrong; it++) {
        uint8_t was = down[wrong[it].at];
        down[wrong[it].at] = wrong[it].byte;
        played.sent++;
        send_piece(0, 1, down, length);
        CHECK(hags_dispatch(client) == HAGS_OK);
        down[wrong[it].at] = was;
    }
    down[length] = 0;
    played.sent++;
    send_piece(0, 1, down, length + 1);
    CHECK(hags_dispatch(client) == HAGS_OK && hags_answer(client) == HAGS_LATE && !hags_next(client));
    played.sent++;
    send_piece(0, 1, down, length);
    settle(client);
    check_next(client, "told 1.5.7.1 1 DISSOLVED");
    end(client);
}

static void test_lost(void) {
    hags *client = client_of("");
    open_client(client);
    send_down(1, 1, 1, "told 1.5.7.1 1 DISSOLVED");
    CHECK(hags_call(client, "leave a db 1") == HAGS_LATE);
    take_up(client);
    played.incarnation = 6;
    send_down(0, 0, 1, "told 1.6.7.1 1 DISSOLVED");
    hags_result result;
    while ((result = hags_dispatch(client)) == HAGS_OK) {}
    CHECK(result == HAGS_LOST && hags_answer(client) == HAGS_LOST && !hags_is_open(client));
    CHECK(hags_call(client, "leave a db 1") == HAGS_LOST && hags_close(client) == HAGS_LOST);
    CHECK(hags_wait(client, 0) == HAGS_OK);
    check_next(client, "told 1.5.7.1 1 DISSOLVED");
    CHECK(!hags_next(client) && hags_wait(client, 1000) == HAGS_LOST);
    uint32_t key = number_at(played.up + HEAD + 4);
    CHECK(hags_open(client, "b") == HAGS_LATE);
    take_up_with(client, 1, 0);
    CHECK(!strcmp(up_line(), "client 1 b -") && number_at(played.up + HEAD + 4) != key);
    send_down(1, 1, 1, "");
    settle(client);
    CHECK(hags_is_open(client) && hags_incarnation(client) == 6);
    end(client);
}

static void test_full(void) {
    hags *client = client_of("");
    CHECK(hags_open(client, "a") == HAGS_LATE);
    take_up(client);
    send_down(0, 3, 1, "");
    while (hags_answer(client) == HAGS_LATE) hags_dispatch(client);
    CHECK(hags_answer(client) == HAGS_FULL && hags_wait(client, 10) == HAGS_FULL && !hags_was_ended(client));
    end(client);
}

/* The Down of a session that the daemon has ended: answer 3 in incarnation 0. */
static void send_ended(void) {
    uint32_t kept = played.incarnation;
    uint8_t down[100];
    played.incarnation = 0;
    size_t length = down_of(down, 0, 3, 1, "");
    played.incarnation = kept;
    played.sent++;
    send_piece(0, 1, down, length);
}

/* A session that was ended is lost, whether the daemon was heard before or not, and another one begins. */
static void test_ended(void) {
    hags *client = client_of("");
    open_client(client);
    send_ended();
    while (hags_dispatch(client) == HAGS_OK) {}
    CHECK(hags_answer(client) == HAGS_LOST && hags_was_ended(client) && !hags_is_open(client));
    CHECK(hags_open(client, "a") == HAGS_LATE && !hags_was_ended(client));
    take_up_with(client, 1, 0);
    send_ended();
    while (hags_dispatch(client) == HAGS_OK) {}
    CHECK(hags_answer(client) == HAGS_LOST && hags_was_ended(client));
    end(client);
}

/* Where a network brings no answer the next one is tried. */
static void test_second_network(void) {
    hags *client = client_of("adapter 1 4 127.0.0.1\nadapter 1 1 127.0.0.1\n");
    int networks = 0;
    CHECK(hags_open(client, "a") == HAGS_LATE);
    while (networks != (1 << 1 | 1 << 2 | 1 << 4)) {
        take_up(client);
        networks |= 1 << played.up[0];
    }
    send_down(1, 1, 1, "");
    settle(client);
    end(client);
}

/* A client at rest asks as seldom as it was told, but once a second at least; a call goes out at once all the same. */
static void test_idle(void) {
    hags *client = client_of("");
    open_client(client);
    hags_idle(client, 100000);
    for (int it = 0; it < 13; it++) take_up(client); /* some 3 seconds of waits that double up to one */
    hags_wait(client, 100);
    socklen_t size = sizeof played.client;
    ssize_t length = recvfrom(played.socket, played.up, sizeof played.up, MSG_DONTWAIT, (struct sockaddr *)&played.client, &size);
    CHECK(length < 0);
    CHECK(hags_call(client, "leave a db 1") == HAGS_LATE);
    take_up_with(client, 2, 0);
    end(client);
}

static void test_close(void) {
    hags *client = client_of("");
    open_client(client);
    CHECK(hags_close(client) == HAGS_LATE);
    take_up_with(client, 2, 0);
    CHECK(!strcmp(up_line(), "goodbye a"));
    send_down(2, 1, 1, "");
    settle(client);
    CHECK(hags_answer(client) == HAGS_OK && !hags_is_open(client));
    CHECK(hags_call(client, "leave a db 1") == HAGS_BAD && hags_wait(client, 0) == HAGS_BAD);
    end(client);
}

/* A question, and a reply that comes when nobody waits for it any more; test_ha_gs.c has replies that come in time. */
static void test_look(void) {
    static const char question[] = {'R', 'G', 1, 22, 2, 0, 1, 0, 0, 0, 0, 0, 0, 0, 0, 5};
    static const char text[] = "hagsns 1.1.5 coord=1 members=1.5 frozen=no\n";
    uint8_t reply[100] = {'R', 'G', 1, 23};
    hags *client = client_of("");
    hags_event *event = (hags_event *)&event;
    CHECK(hags_look(client, HAGS_HOSTS, &event) == HAGS_BAD && !event);
    open_client(client);
    CHECK(hags_look(client, HAGS_HOSTS, &event) == HAGS_LATE && !event);
    do take_up(client);
    while (memcmp(played.up + HEAD, question, sizeof question));
    CHECK(played.length == HEAD + 21 && played.up[HEAD + 20] == 2);
    memcpy(reply + 16, played.up + HEAD + 16, 4);
    memcpy(reply + 20, text, sizeof text);
    played.sent++;
    send_piece(0, 1, reply, 20 + sizeof text - 1);
    CHECK(hags_wait(client, 20) == HAGS_LATE && hags_is_open(client));
    end(client);
}

/* How each call is spelled. */
static void test_calls(void) {
    static const hags_attributes all = {true, HAGS_BOTH, true, 20, "disk", true, 7};
    static const hags_provider two[] = {{1, 5, 7, 1}, {2, 4294967295u, 65535, 9}};
    hags *client = client_of("");
    open_client(client);
    uint32_t number = 1;
#define MADE(made, line) \
    (CHECK((made) == HAGS_LATE), take_up_with(client, ++number, 0), CHECK(!strcmp(up_line(), (line))), \
     send_down(number, 1, 1, ""), settle(client))
    MADE(hags_join(client, "db", 7, NULL), "join a db 7");
    MADE(hags_join(client, "db", 65535, &all),
         "join a db 65535 phases=n batch=both default=reject limit=20 source=disk sphases=n slimit=7");
    MADE(hags_leave(client, "db", true), "leave a db n");
    MADE(hags_expel(client, "db", false, (hags_members){2, two}), "expel a db 1 1.5.7.1 2.4294967295.65535.9");
    MADE(hags_state(client, "db", false, hags_string("a b%c~")), "state a db 1 a%20b%25c~");
    MADE(hags_state(client, "db", true, hags_string("~")), "state a db n %7E");
    MADE(hags_message(client, "db", true, (hags_bytes){3, "\0\xff\n"}), "message a db n %00%FF%0A");
    MADE(hags_message(client, "db", false, hags_string("")), "message a db 1 ~");
    MADE(hags_change(client, "db", false, &(hags_attributes){.batch = HAGS_JOINS}), "attrs a db 1 batch=joins");
    MADE(hags_vote(client, "db", 'A', (hags_bytes){0, NULL}), "vote a db A");
    MADE(hags_vote(client, "db", 'C', hags_string("")), "vote a db C=~");
    MADE(hags_subscribe(client, HAGS_HOSTS), "subscribe a HostMembership");
    MADE(hags_unsubscribe(client, "db"), "unsubscribe a db");
#undef MADE
    char long_text[600];
    memset(long_text, ' ', 599);
    long_text[599] = 0;
    CHECK(hags_message(client, "db", false, hags_string(long_text)) == HAGS_BAD);
    CHECK(hags_join(client, "d b", 1, NULL) == HAGS_BAD && hags_join(client, "", 1, NULL) == HAGS_BAD);
    CHECK(hags_join(client, "db", 0, NULL) == HAGS_BAD && hags_join(client, "db", 65536, NULL) == HAGS_BAD);
    CHECK(hags_vote(client, "db", 'X', (hags_bytes){0, NULL}) == HAGS_BAD);
    CHECK(hags_change(client, "db", false, &(hags_attributes){.batch = 4}) == HAGS_BAD);
    CHECK(hags_call(client, "") == HAGS_BAD && hags_call(client, "leave a db 1\n") == HAGS_BAD);
    CHECK(hags_open(client, "b") == HAGS_BAD);
    end(client);
    client = client_of("");
    CHECK(hags_open(client, "") == HAGS_BAD && hags_open(client, "a name") == HAGS_BAD);
    CHECK(hags_open(client, "abcdefghijklmnopq") == HAGS_BAD && hags_leave(client, "db", false) == HAGS_BAD);
    end(client);
}

static hags_event *event_of(const char *line) {
    hags_event *event = hags_event_of(line, strlen(line));
    CHECK(event && event->length == strlen(line) && !strcmp(event->line, line));
    return event;
}

static bool is_mark(const hags_event *it, size_t at, const char *wanted) {
    hags_bytes mark = hags_mark(&it->put, at);
    return mark.length == strlen(wanted) && !memcmp(mark.bytes, wanted, mark.length);
}

static void test_events(void) {
    hags_event *it = event_of("heard 1.5.7.1 3.1.5 db 12 begin-attrs 1.5.7.1,2.9.65535.4294967295 =a%20%00b");
    CHECK(it->what == HAGS_HEARD && it->heard.view.number == 3 && it->heard.place == 12 && it->heard.step == HAGS_BEGIN);
    CHECK(it->heard.kind == HAGS_ATTRIBUTES && it->heard.members.count == 2 && it->heard.members.list[1].join == UINT32_MAX);
    CHECK(it->heard.value.length == 4 && !memcmp(it->heard.value.bytes, "a \0b", 5) && !strcmp(it->heard.group, "db"));
    CHECK(hags_is_same(it->heard.provider, it->heard.members.list[0]));
    CHECK(!hags_is_same(it->heard.provider, it->heard.members.list[1]));
    free(it);
    it = event_of("heard 1.5.7.1 3.1.5 db 0 reject - =");
    CHECK(it->heard.step == HAGS_REJECT && it->heard.kind == HAGS_NO_KIND && !it->heard.members.count);
    CHECK(!it->heard.value.length && it->heard.value.bytes);
    free(it);
    it = event_of("cast 1.5.7.1 3.1.5/0 2 C=x");
    CHECK(it->what == HAGS_CAST && it->cast.protocol.view.coordinator == 1 && it->cast.phase == 2 && it->cast.vote == 'C');
    CHECK(it->cast.value.length == 1);
    free(it);
    it = event_of("cast 1.5.7.1 3.1.5/0 1 A");
    CHECK(it->what == HAGS_CAST && !it->cast.value.bytes);
    free(it);
    it = event_of("told 1.5.7.1 0 LIST_FULL 4096/12");
    CHECK(it->what == HAGS_TOLD && !strcmp(it->told.code, "LIST_FULL") && !strcmp(it->told.detail, "4096/12"));
    free(it);
    it = event_of("told 1.5.7.1 3 DISSOLVED");
    CHECK(it->what == HAGS_TOLD && it->told.request == 3 && !*it->told.detail);
    free(it);
    it = event_of("noted 2.bob 3.1.5 HostMembership - 1.5,2.9 =");
    CHECK(it->what == HAGS_NOTED && !it->noted.has_place && it->noted.members.count == 2 && !it->noted.members.list[1].instance);
    CHECK(!strcmp(it->noted.client, "2.bob") && it->noted.members.list[1].incarnation == 9);
    free(it);
    it = event_of("put 1 3.1.5 db 4 once message 1.5.7.1/3 =hello");
    CHECK(it->what == HAGS_PUT && it->put.place == 4 && !strcmp(it->put.entry, "once message 1.5.7.1/3 =hello"));
    free(it);
    it = event_of("put 1 3.1.5 db 4 begin join 1.5.7.1,2.5.8.2 phases=n batch=both default=reject limit=20 source=disk "
                  "sphases=n slimit=7 src=3");
    CHECK(it->what == HAGS_PUT && it->put.providers.count == 2 && it->put.attributes.by_vote && it->put.attributes.rejects);
    CHECK(it->put.attributes.batch == HAGS_BOTH && it->put.attributes.limit == 20 && it->put.attributes.source_limit == 7);
    CHECK(!strcmp(it->put.attributes.source, "disk") && it->put.attributes.source_by_vote && it->put.step == HAGS_BEGIN);
    CHECK(it->put.has_source_length && it->put.source_length == 3 && !hags_mark(&it->put, 0).length);
    free(it);
    it = event_of("put 1 3.1.5 db 4 once fail 1.5.7.1:died,2.5.8.2:gone");
    CHECK(it->what == HAGS_PUT && it->put.kind == HAGS_FAIL && it->put.providers.list[1].node == 2);
    CHECK(is_mark(it, 0, "died") && is_mark(it, 1, "gone") && is_mark(it, 2, "") && !it->put.has_source_length);
    free(it);
    it = event_of("put 1 3.1.5 db 4 once expel 1.5.7.1/3 2.5.8.2,3.5.9.1");
    CHECK(it->what == HAGS_PUT && it->put.request == 3 && it->put.asker.instance == 7 && it->put.providers.count == 2);
    free(it);
    it = event_of("put 1 3.1.5 db 4 phase 3.1.5/2 1 1.5.7.1=A,2.5.8.2=LR =new%20one");
    CHECK(it->what == HAGS_PUT && it->put.phase == 1 && it->put.protocol.place == 2 && it->put.value.length == 7);
    CHECK(!strcmp(it->put.detail, "1.5.7.1=A,2.5.8.2=LR") && it->put.providers.count == 2 && it->put.kind == HAGS_NO_KIND);
    CHECK(is_mark(it, 0, "A") && is_mark(it, 1, "LR"));
    free(it);
    it = event_of("put 1 3.1.5 db 4 reject 3.1.5/2 1 -");
    CHECK(it->what == HAGS_PUT && it->put.step == HAGS_REJECT && !it->put.providers.count);
    free(it);
    it = event_of("put 1 3.1.5 db 4 approve 3.1.5/2 9 1.5.7.1=A -");
    CHECK(it->what == HAGS_PUT && !it->put.value.bytes && it->put.phase == 9);
    free(it);
    it = event_of("put 1 3.1.5 db 4 late 3.1.5/2 9 1.5.7.1");
    CHECK(it->what == HAGS_PUT && it->put.step == HAGS_LATE_VOTERS && it->put.providers.count == 1);
    free(it);
    it = event_of("put 1 3.1.5 db 4 begin reflect 2.1.5/9 =x");
    CHECK(it->what == HAGS_PUT && it->put.protocol.place == 9 && it->put.value.length == 1);
    free(it);
    static const char *const others[] = {
        "put 1 3.1.5 db 4 once", "put 1 3.1.5 db 4 once state 1.5.7.1 =x", "put 1 3.1.5 db 4 once leave 1.5.7.1/3 x",
        "put 1 3.1.5 db 4 phase 3.1.5/2 1 1.5.7.1 -", "put 1 3.1.5 db 4 approve 3.1.5/2 1 1.5.7.1=A", "put 1 3.1.5 db 4 new x",
        "put 1 3.1.5 db 4 once join 1.5.7.1 limit=x", "put 1 3.1.5 db 4 once join 1.5.7.1 limit", "put 1 3.1.5 db 4 reject 3.1.5/2 1 - -",
        "", " ", "new", "asked", "asked 1.5.7.1 1 db", "asked 1.5.7.1 1 db join more", "asked 1.5.7 1 db join",
        "asked 1.5.7.1 01 db join", "asked 1.5.7.1 4294967296 db join", "asked 33.5.7.1 1 db join", "asked 1.5.7.1 1  join",
        "asked 1.5.65536.1 1 db join", "heard 1.5.7.1 3.1.5 db 0 once-new - =", "heard 1.5.7.1 3.1.5 db 0 once-join - ",
        "heard 1.5.7.1 3.1.5 db 0 once-join 1.5.7.1, =", "heard 1.5.7.1 3.1.5 db 0 once-join - =%2", "cast 1.5.7.1 3.1.5 1 A",
        "heard 1.5.7.1 3.1.5 db 0 once-join - =%2g", "cast 1.5.7.1 3.1.5/0 1 B", "noted 1.a 3.1.5 HostMembership - 1.5.7.1 =",
        "put 1 3.1.5 db 4", "told 1.5.7.1 1", " asked 1.5.7.1 1 db join", "asked 1.5.7.1 1 db join "};
    for (size_t at = 0; at < sizeof others / sizeof *others; at++) {
        it = event_of(others[at]);
        if (it->what != HAGS_OTHER) fail(__LINE__, others[at]);
        free(it);
    }
    it = hags_event_of("asked 1.5.7.1 1 db join\0more", 28);
    CHECK(it->what == HAGS_OTHER && it->length == 28);
    free(it);
}

static void test_settings(void) {
    static const char *const faulty[] = {"", "node 1\nadapter 1 1 127.0.0.1\nport 0\nbegin\n", "node 2\nbegin\n",
                                         "node 1\nadapter 2 1 127.0.0.1\nbegin\n", "node 1\nadapter 1 5 127.0.0.1\nbegin\n",
                                         "node 1\nadapter 1 1 host\nbegin\n", "begin\nnode 1\n", "node 1\nport 65001\nbegin\n"};
    for (size_t at = 0; at < sizeof faulty / sizeof *faulty; at++) {
        errno = 0;
        CHECK(!hags_new(faulty[at], 1) && errno == EINVAL);
    }
    hags *client = hags_new("node 1", 1);
    CHECK(client && hags_fd(client) >= 0 && hags_wait(client, 0) == HAGS_BAD);
    hags_delete(client);
    hags_delete(NULL);
    CHECK(!strcmp(hags_text(HAGS_OK), "done") && !strcmp(hags_text((hags_result)99), "no such result"));
}

int main(void) {
    alarm(LONGEST);
    test_events();
    test_settings();
    test_bytes();
    test_repeats();
    test_order();
    test_many_events();
    test_pieces();
    test_strays();
    test_lost();
    test_full();
    test_ended();
    test_second_network();
    test_idle();
    test_close();
    test_look();
    test_calls();
    puts("the C client is as it should be");
}
