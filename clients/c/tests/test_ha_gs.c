/* A program of the Group Services interface, against a daemon that this test plays itself: for each call it has the line
 * that is to come, the answer, and the events. What a daemon tells that writes entries is here too. */
#define _GNU_SOURCE
#include "../ha_gs.h"

#include <arpa/inet.h>
#include <poll.h>
#include <pthread.h>
#include <stdarg.h>
#include <stdbool.h>
#include <stdint.h>
#include <stdio.h>
#include <stdlib.h>
#include <string.h>
#include <sys/socket.h>
#include <unistd.h>

#define CHECK(what) ((what) ? (void)0 : fail(__LINE__, #what))
enum { LONGEST = 120 /* seconds */, HEAD = 25, TAKEN = 1, REFUSED = 2, LOSE = 9 };

static void fail(int line, const char *what) {
    fprintf(stderr, "test_ha_gs.c:%d: %s\n", line, what);
    exit(1);
}

/* ---- The daemon ---- */

typedef struct {
    const char *line;
    int answer; /* LOSE: the daemon is started anew, and knows nothing */
    const char *events;
} row;

#define ME "1.5.7.1"
#define OTHER "2.5.8.3"
static const row ROWS[] = {
    {"client 1 gs-test -", TAKEN, ""},
    {"join gs-test db 7 phases=n batch=joins default=reject limit=20", TAKEN,
     "asked " ME " 1 db join\nheard " ME " 1.1.5 db 0 begin-join - ="},
    {"vote gs-test db A", TAKEN, "cast " ME " 1.1.5/0 1 A\nheard " ME " 1.1.5 db 1 approve " ME " ="},
    /* another one joins, and then a value is set, at once */
    {"state gs-test db 1 red%00", TAKEN,
     "heard " ME " 1.1.5 db 2 begin-join " ME " =\nheard " ME " 1.1.5 db 3 approve " ME "," OTHER " =\n"
     "asked " ME " 2 db state\nheard " ME " 1.1.5 db 4 once-state " ME "," OTHER " =red%00"},
    /* a vote in two phases that is rejected; this daemon tells the entries of it */
    {"message gs-test db n hi", TAKEN,
     "asked " ME " 3 db message\nput 1 1.1.5 db 5 begin message " ME "/3 =hi\n"
     "heard " ME " 1.1.5 db 5 begin-message " ME "," OTHER " =red%00"},
    {"vote gs-test db C=blue", TAKEN,
     "cast " ME " 1.1.5/5 1 C=blue\nput 1 1.1.5 db 6 phase 1.1.5/5 1 " ME "=C," OTHER "=LA =blue\n"
     "heard " ME " 1.1.5 db 6 phase " ME "," OTHER " =red%00\nput 1 1.1.5 db 7 late 1.1.5/5 2 " OTHER "\n"
     "heard " ME " 1.1.5 db 7 late " ME "," OTHER " =red%00"},
    {"vote gs-test db R", TAKEN,
     "put 1 1.1.5 db 8 reject 1.1.5/5 2 " ME "=R," OTHER "=LR\nheard " ME " 1.1.5 db 8 reject " ME "," OTHER " =red%00"},
    {"attrs gs-test db 1 phases=n limit=30", TAKEN,
     "asked " ME " 4 db attrs\nput 1 1.1.5 db 9 once attrs " ME "/4 phases=n limit=25\n"
     "heard " ME " 1.1.5 db 9 once-attrs " ME "," OTHER " =red%00"},
    {"subscribe gs-test HostMembership", TAKEN,
     "noted 1.gs-test 1.1.5 HostMembership - 1.5,2.5 =\nnoted 1.gs-test 2.1.5 HostMembership - 1.5,3.9 ="},
    {"unsubscribe gs-test HostMembership", TAKEN, ""},
    /* what is noted first is older than what the daemon says when it is asked, or the same */
    {"subscribe gs-test db", TAKEN,
     "noted 1.gs-test 1.1.5 db 8 " ME " =old\nnoted 1.gs-test 1.1.5 db 9 " ME "," OTHER " =red\n"
     "noted 1.gs-test 1.1.5 db 10 " ME "," OTHER " =blue"},
    {"unsubscribe gs-test db", TAKEN, ""},
    {"subscribe gs-test none", REFUSED, "refused 1.gs-test UNKNOWN_GROUP"},
    {"expel gs-test db n " OTHER, TAKEN, "asked " ME " 5 db expel\ntold " ME " 5 COLLIDE 1.1.5/9"},
    {"state gs-test db 1 x", REFUSED, "refused 1.gs-test COLLIDE 5"},
    {"leave gs-test db n", TAKEN,
     "asked " ME " 6 db leave\nput 1 1.1.5 db 10 once fail " OTHER ":died\nheard " ME " 1.1.5 db 10 once-fail " ME " =\n"
     "put 1 1.1.5 db 11 begin leave " ME "/6\nheard " ME " 1.1.5 db 11 begin-leave " ME " =\n"
     "heard " ME " 1.1.5 db 12 approve - ="},
    {"join gs-test db 65535", TAKEN, "asked 1.5.65535.7 7 db join\ntold 1.5.65535.7 7 GROUP_FULL 64"},
    {"join gs-test db 9", TAKEN, "asked 1.5.9.8 8 db join\nheard 1.5.9.8 1.1.5 db 13 once-join 1.5.9.8 ="},
    {"leave gs-test db 1", TAKEN, "asked 1.5.9.8 9 db leave\nheard 1.5.9.8 1.1.5 db 14 once-leave - ="},
    /* another one comes and goes, and nothing tells the entries of it */
    {"join gs-test db 10", TAKEN,
     "asked 1.5.10.10 10 db join\nheard 1.5.10.10 1.1.5 db 15 once-join 1.5.10.10 =\n"
     "heard 1.5.10.10 1.1.5 db 16 once-join 1.5.10.10," OTHER " =\nheard 1.5.10.10 1.1.5 db 17 once-fail 1.5.10.10 ="},
    {"message gs-test db 1 bye", LOSE, ""},
    {"client 1 gs-test -", TAKEN, ""},
    {"goodbye gs-test", TAKEN, ""},
};
enum { COUNT = sizeof ROWS / sizeof *ROWS };

static int daemon_socket;
static uint32_t incarnation = 5;

static void put_number(uint8_t *at, uint32_t number) {
    for (int it = 3; it >= 0; it--, number >>= 8) at[it] = (uint8_t)number;
}

static uint32_t number_at(const uint8_t *at) {
    return (uint32_t)at[0] << 24 | (uint32_t)at[1] << 16 | (uint32_t)at[2] << 8 | at[3];
}

/* What the daemon knows of the session: which rows were played for it, and all events since it began. */
static struct {
    uint32_t key, done, sent;
    int answer, next;
    size_t count;
    const char *events[200];
    size_t length[200];
} known;

static void play(const row *it) {
    known.answer = it->answer;
    for (const char *at = it->events; *at; at += strcspn(at, "\n"), at += *at == '\n') {
        known.events[known.count] = at;
        known.length[known.count++] = strcspn(at, "\n");
    }
}

static void take_call(uint32_t key, uint32_t number, const char *line) {
    if (key != known.key) {
        known.key = key;
        known.done = 0;
        known.count = 0;
    }
    if (number != known.done + 1 || !*line) return;
    if (known.next == COUNT) fail(__LINE__, line);
    const row *it = &ROWS[known.next++];
    if (strcmp(line, it->line)) fail(__LINE__, line);
    if (it->answer == LOSE) {
        incarnation++;
        known.done = 0;
        return;
    }
    known.done++;
    play(it);
}

/* The first question of each kind is not heard. */
static void reply(const uint8_t *question, const struct sockaddr_in *client) {
    static const char *const texts[] = {
        [2] = "hagsns 1.1.5 coord=1 members=1.5,2.5 frozen=no\n",
        [3] = "hagsgr a leader=? len=0 members=- value=\nhagsgr db leader=1 len=10 members=" ME "," OTHER " value=red\n"};
    static bool has_come[4];
    uint8_t out[500] = {1, 'R', 'P', 1}, what = question[20];
    if (what > 3 || !texts[what]) fail(__LINE__, "no such question");
    bool was_asked = has_come[what];
    has_come[what] = true;
    if (!was_asked) return;
    put_number(out + 5, incarnation);
    put_number(out + 13, ++known.sent);
    put_number(out + 21, 1);
    memcpy(out + HEAD, "RG\1\27", 4);
    memcpy(out + HEAD + 16, question + 16, 4);
    memcpy(out + HEAD + 20, texts[what], strlen(texts[what]));
    sendto(daemon_socket, out, HEAD + 20 + strlen(texts[what]), 0, (const struct sockaddr *)client, sizeof *client);
}

static void *serve(void *none) {
    uint8_t up[1300], down[2000] = {1, 'R', 'P', 1};
    struct sockaddr_in client;
    for (;;) {
        socklen_t size = sizeof client;
        ssize_t length = recvfrom(daemon_socket, up, sizeof up - 1, 0, (struct sockaddr *)&client, &size);
        if (length <= 1) return none;
        up[length] = 0;
        if (!memcmp(up + HEAD, "RG\1\26", 4)) {
            reply(up + HEAD, &client);
            continue;
        }
        take_call(number_at(up + HEAD + 4), number_at(up + HEAD + 8), (const char *)up + HEAD + 18);
        uint32_t heard = number_at(up + HEAD + 12);
        uint8_t *at = down + HEAD + 22;
        int count = 0;
        for (size_t it = heard; it < known.count && count < 16; it++, count++) {
            *at++ = (uint8_t)(known.length[it] >> 8);
            *at++ = (uint8_t)known.length[it];
            memcpy(at, known.events[it], known.length[it]);
            at += known.length[it];
        }
        put_number(down + 5, incarnation);
        put_number(down + 13, ++known.sent);
        put_number(down + 21, 1);
        memcpy(down + HEAD, "RS\2\0", 4);
        memcpy(down + HEAD + 4, up + HEAD + 4, 4);
        put_number(down + HEAD + 8, incarnation);
        put_number(down + HEAD + 12, known.done);
        down[HEAD + 16] = (uint8_t)(known.done ? known.answer : 0);
        put_number(down + HEAD + 17, heard + 1);
        down[HEAD + 21] = (uint8_t)count;
        sendto(daemon_socket, down, (size_t)(at - down), 0, (struct sockaddr *)&client, sizeof client);
    }
}

/* ---- The program ---- */

/* What came, as words. */
static char came[8000];
static ha_gs_token_t token, subscriber;
static bool votes = true;

static void add(const char *form, ...) __attribute__((format(printf, 1, 2)));
static void add(const char *form, ...) {
    va_list words;
    va_start(words, form);
    vsnprintf(came + strlen(came), sizeof came - strlen(came), form, words);
    va_end(words);
}

static void add_members(const char *name, const ha_gs_membership_t *list) {
    if (!list) return;
    add(" %s", name);
    for (int at = 0; at < list->gs_count; at++)
        add(":%d.%d", list->gs_providers[at].gs_node_number, (unsigned short)list->gs_providers[at].gs_instance_number);
}

static void add_proposal(const ha_gs_proposal_t *it) {
    add(" phases=%d phase=%d by=%d.%d changed=%x", it->gs_phase_info.gs_num_phases, it->gs_phase_info.gs_phase_number,
        it->gs_proposed_by.gs_node_number, it->gs_proposed_by.gs_instance_number, it->gs_whats_changed);
    add_members("now", it->gs_current_providers);
    add_members("changing", it->gs_changing_providers);
    if (it->gs_leave_info) add(" reason=%d", it->gs_leave_info->gs_leave_reasons[0]);
    if (it->gs_current_state_value) add(" value=%d", it->gs_current_state_value->gs_length);
    if (it->gs_proposed_state_value) add(" proposed=%s", it->gs_proposed_state_value->gs_state);
    if (it->gs_provider_message) add(" message=%s", it->gs_provider_message->gs_message);
    if (it->gs_new_group_attributes) add(" limit=%d", it->gs_new_group_attributes->gs_time_limit);
}

static void on_phase(const ha_gs_n_phase_notification_t *it) {
    add("phase %d %d:", it->gs_protocol_type, it->gs_time_limit);
    if (it->gs_summary_code) add(" summary=%x", it->gs_summary_code);
    add_proposal(it->gs_proposal);
    add("\n");
    ha_gs_state_value_t blue = {4, "blue"};
    int phase = it->gs_proposal->gs_phase_info.gs_phase_number;
    CHECK(it->gs_notification_type == HA_GS_N_PHASE_NOTIFICATION && it->gs_provider_token == token);
    if (it->gs_protocol_type == HA_GS_JOIN && votes)
        CHECK(ha_gs_vote(token, HA_GS_VOTE_APPROVE, NULL, NULL, HA_GS_NULL_VOTE) == HA_GS_OK);
    votes = false;
    if (it->gs_protocol_type == HA_GS_PROVIDER_MESSAGE && phase == 1)
        CHECK(ha_gs_vote(token, HA_GS_VOTE_CONTINUE, &blue, NULL, HA_GS_NULL_VOTE) == HA_GS_OK);
    if (it->gs_protocol_type == HA_GS_PROVIDER_MESSAGE && phase == 2)
        CHECK(ha_gs_vote(token, HA_GS_VOTE_REJECT, NULL, NULL, HA_GS_NULL_VOTE) == HA_GS_OK);
}

static void on_approved(const ha_gs_approved_notification_t *it) {
    add("approved %d %x:", it->gs_protocol_type, it->gs_summary_code);
    add_proposal(it->gs_proposal);
    add("\n");
    CHECK(it->gs_notification_type == HA_GS_APPROVED_NOTIFICATION && it->gs_provider_token == token);
    CHECK(ha_gs_dispatch(HA_GS_NON_BLOCKING) == HA_GS_NOT_OK);
}

static void on_rejected(const ha_gs_rejected_notification_t *it) {
    add("rejected %d %x:", it->gs_protocol_type, it->gs_summary_code);
    add_proposal(it->gs_proposal);
    add("\n");
    CHECK(it->gs_notification_type == HA_GS_REJECTED_NOTIFICATION);
}

static void on_announcement(const ha_gs_announcement_notification_t *it) {
    add("announced %x", it->gs_summary_code);
    add_members("whom", it->gs_announcement);
    add("\n");
}

static void on_error(const ha_gs_delayed_error_notification_t *it) {
    add("error %d %d\n", it->gs_protocol_type, it->gs_delayed_return_code);
}

static void on_subscription(const ha_gs_subscription_notification_t *it) {
    CHECK(it->gs_subscriber_token == subscriber);
    add("noted %x", it->gs_subscription_type);
    add_members("all", it->gs_full_membership);
    add_members("in", it->gs_joining_membership);
    add_members("out", it->gs_leaving_membership);
    add("\n");
}

/* Dispatches until this has come, and nothing else. */
static void expect(int line, ha_gs_descriptor_t descriptor, const char *what) {
    for (int it = 0; it < 1000 && strlen(came) < strlen(what); it++) {
        struct pollfd ready = {descriptor, POLLIN, 0};
        poll(&ready, 1, 1000);
        CHECK(ha_gs_dispatch(HA_GS_NON_BLOCKING) == HA_GS_OK);
    }
    if (strcmp(came, what)) fail(line, came);
    came[0] = 0;
}
#define EXPECT(what) expect(__LINE__, descriptor, what)

static ha_gs_rc_t init(ha_gs_descriptor_t *descriptor) {
    return ha_gs_init(descriptor, HA_GS_SOCKET_NO_SIGNAL, NULL, NULL, NULL, on_error, NULL);
}

static ha_gs_rc_t join(short instance, ha_gs_group_attributes_t *attributes) {
    ha_gs_proposal_info_t info = {.gs_join_request = {attributes, instance, "local", on_phase, on_approved, on_rejected,
                                                      on_announcement, NULL}};
    return ha_gs_join(&token, &info);
}

static void write_settings(void) {
    static char name[] = "/tmp/test_ha_gs.XXXXXX";
    struct sockaddr_in at = {.sin_family = AF_INET, .sin_addr.s_addr = htonl(INADDR_LOOPBACK)};
    socklen_t size = sizeof at;
    do {
        if (daemon_socket) close(daemon_socket);
        at.sin_port = 0;
        daemon_socket = socket(AF_INET, SOCK_DGRAM, 0);
        CHECK(!bind(daemon_socket, (struct sockaddr *)&at, sizeof at));
        CHECK(!getsockname(daemon_socket, (struct sockaddr *)&at, &size));
    } while (ntohs(at.sin_port) > 65000);
    int file = mkstemp(name);
    FILE *settings = fdopen(file, "w");
    CHECK(settings && fprintf(settings, "node 1\nadapter 1 1 127.0.0.1\nport %d\nbegin\n", ntohs(at.sin_port) - 1) > 0);
    fclose(settings);
    setenv("HAGS_SETTINGS", name, 1);
    setenv("HAGS_CLIENT", "gs-test", 1);
}

static void check_without_session(void) {
    ha_gs_descriptor_t descriptor;
    ha_gs_proposal_info_t none = {.gs_leave_request = {HA_GS_1_PHASE, 0, 0}};
    int node;
    CHECK(ha_gs_dispatch(HA_GS_NON_BLOCKING) == HA_GS_NO_INIT && ha_gs_quit() == HA_GS_NO_INIT);
    CHECK(ha_gs_join(&token, &none) == HA_GS_NO_INIT && ha_gs_leave(1, &none) == HA_GS_NO_INIT);
    CHECK(ha_gs_subscribe(&token, &none) == HA_GS_NO_INIT && ha_gs_unsubscribe(1) == HA_GS_NO_INIT);
    CHECK(ha_gs_vote(1, HA_GS_VOTE_APPROVE, NULL, NULL, HA_GS_NULL_VOTE) == HA_GS_NO_INIT && ha_gs_goodbye(1) == HA_GS_NO_INIT);
    CHECK(ha_gs_get_node_number(&node) == HA_GS_NO_INIT);
    CHECK(init(NULL) == HA_GS_BAD_PARAMETER);
    CHECK(ha_gs_init(&descriptor, HA_GS_SOCKET_SIGNAL, NULL, NULL, NULL, NULL, NULL) == HA_GS_NOT_SUPPORTED);
    ha_gs_responsiveness_t ping = {HA_GS_PING_RESPONSIVENESS, 5, 5, NULL, 0};
    CHECK(ha_gs_init(&descriptor, HA_GS_SOCKET_NO_SIGNAL, &ping, NULL, NULL, NULL, NULL) == HA_GS_NOT_SUPPORTED);
    setenv("HAGS_NODE", "9", 1);
    CHECK(init(&descriptor) == HA_GS_BAD_PARAMETER);
    setenv("HAGS_NODE", "1", 1);
}

static void check_bad_parameters(ha_gs_group_attributes_t good) {
    ha_gs_group_attributes_t bad = good;
    CHECK(join(0, &good) == HA_GS_BAD_PARAMETER && join(7, NULL) == HA_GS_BAD_PARAMETER);
    bad.gs_group_name = "abcdefghijklmnopqrstuvwxyz0123456";
    CHECK(join(7, &bad) == HA_GS_NAME_TOO_LONG);
    bad.gs_group_name = "d b";
    CHECK(join(7, &bad) == HA_GS_BAD_PARAMETER);
    bad = good, bad.gs_merge_control = HA_GS_LARGER_MERGE;
    CHECK(join(7, &bad) == HA_GS_NOT_SUPPORTED);
    bad = good, bad.gs_group_default_vote = HA_GS_VOTE_CONTINUE;
    CHECK(join(7, &bad) == HA_GS_BAD_GROUP_ATTRIBUTES);
    bad = good, bad.gs_time_limit = 1001;
    CHECK(join(7, &bad) == HA_GS_BAD_GROUP_ATTRIBUTES);
    ha_gs_proposal_info_t info = {.gs_join_request = {&good, 7, NULL, NULL, on_approved, on_rejected, NULL, NULL}};
    CHECK(ha_gs_join(&token, &info) == HA_GS_BAD_PARAMETER && ha_gs_leave(99, &info) == HA_GS_BAD_MEMBER_TOKEN);
}

int main(void) {
    ha_gs_descriptor_t descriptor;
    pthread_t daemon;
    int node;
    alarm(LONGEST);
    write_settings();
    check_without_session();
    CHECK(!pthread_create(&daemon, NULL, serve, NULL));
    CHECK(init(&descriptor) == HA_GS_OK && init(&descriptor) == HA_GS_EXISTS);
    CHECK(ha_gs_get_node_number(&node) == HA_GS_OK && node == 1 && ha_gs_get_node_number(NULL) == HA_GS_BAD_PARAMETER);

    ha_gs_group_attributes_t attributes = {HA_GS_RELEASE, sizeof attributes, HA_GS_RELEASE, HA_GS_BATCH_JOINS, HA_GS_N_PHASE,
                                           HA_GS_1_PHASE, HA_GS_VOTE_REJECT, HA_GS_DISSOLVE_MERGE, 2, 0, "db", NULL};
    check_bad_parameters(attributes);
    CHECK(join(7, &attributes) == HA_GS_OK);
    EXPECT("phase 1 2: phases=2 phase=1 by=0.0 changed=0 now value=0\n"
           "approved 1 0: phases=2 phase=1 by=1.7 changed=4 now:1.7 changing:1.7 value=0\n");

    ha_gs_proposal_info_t state = {.gs_state_change_request = {HA_GS_1_PHASE, 0, {4, "red"}}};
    CHECK(ha_gs_change_state_value(token, &state) == HA_GS_OK);
    EXPECT("phase 1 2: phases=2 phase=1 by=0.0 changed=0 now:1.7 value=0\n"
           "approved 1 0: phases=2 phase=1 by=2.8 changed=4 now:1.7:2.8 changing:2.8 value=0\n"
           "approved 5 0: phases=1 phase=1 by=0.0 changed=20 now:1.7:2.8 value=4\n");

    ha_gs_proposal_info_t message = {.gs_message_request = {HA_GS_N_PHASE, 0, {2, "hi"}}};
    CHECK(ha_gs_send_message(token, &message) == HA_GS_OK);
    EXPECT("phase 6 2: phases=2 phase=1 by=1.7 changed=40 now:1.7:2.8 value=4 message=hi\n"
           "phase 6 2: summary=a phases=2 phase=2 by=1.7 changed=48 now:1.7:2.8 value=4 proposed=blue message=hi\n"
           "announced 8 whom:2.8\n"
           "rejected 6 d: phases=2 phase=2 by=1.7 changed=48 now:1.7:2.8 value=4 proposed=blue message=hi\n");

    ha_gs_group_attributes_t others = {.gs_num_phases = HA_GS_N_PHASE, .gs_time_limit = 3, .gs_group_name = "db"};
    ha_gs_proposal_info_t change = {.gs_attribute_change_request = {HA_GS_1_PHASE, 0, &others}};
    CHECK(ha_gs_change_attributes(token, &change) == HA_GS_OK);
    EXPECT("approved 11 0: phases=1 phase=1 by=1.7 changed=200 now:1.7:2.8 value=4 limit=3\n");

    ha_gs_proposal_info_t hosts = {.gs_subscribe_request = {HA_GS_SUBSCRIBE_STATE_AND_MEMBERSHIP, "HostMembership", on_subscription}};
    CHECK(ha_gs_subscribe(&subscriber, &hosts) == HA_GS_OK);
    EXPECT("noted b all:1.0:2.0 in:1.0:2.0\nnoted e all:1.0:3.0 in:3.0 out:2.0\n");
    CHECK(ha_gs_unsubscribe(subscriber) == HA_GS_OK && ha_gs_unsubscribe(subscriber) == HA_GS_BAD_MEMBER_TOKEN);
    hosts.gs_subscribe_request.gs_subscription_group = "db";
    CHECK(ha_gs_subscribe(&subscriber, &hosts) == HA_GS_OK);
    EXPECT("noted b all:1.7:2.8 in:1.7:2.8\nnoted 1\n");
    CHECK(ha_gs_unsubscribe(subscriber) == HA_GS_OK);
    hosts.gs_subscribe_request.gs_subscription_group = "none";
    CHECK(ha_gs_subscribe(&subscriber, &hosts) == HA_GS_UNKNOWN_GROUP);

    ha_gs_provider_t other, stranger;
    memset(&other, 0, sizeof other);
    memset(&stranger, 0, sizeof stranger);
    other.gs_node_number = 2, other.gs_instance_number = 8, stranger.gs_node_number = 3;
    ha_gs_proposal_info_t expel = {.gs_expel_request = {HA_GS_N_PHASE, 0, {1, &stranger}, 0, NULL}};
    CHECK(ha_gs_expel(token, &expel) == HA_GS_NOT_A_MEMBER);
    expel.gs_expel_request.gs_expel_list.gs_providers = &other;
    expel.gs_expel_request.gs_deactivate_phase = 1;
    CHECK(ha_gs_expel(token, &expel) == HA_GS_NOT_SUPPORTED);
    expel.gs_expel_request.gs_deactivate_phase = 0;
    CHECK(ha_gs_expel(token, &expel) == HA_GS_OK);
    state.gs_state_change_request.gs_new_state = (ha_gs_state_value_t){1, "x"};
    CHECK(ha_gs_change_state_value(token, &state) == HA_GS_COLLIDE);
    EXPECT("error 4 16\n");

    ha_gs_proposal_info_t leave = {.gs_leave_request = {HA_GS_N_PHASE, 0, 0}};
    CHECK(ha_gs_leave(token, &leave) == HA_GS_OK);
    EXPECT("approved 2 0: phases=1 phase=1 by=0.0 changed=24 now:1.7 changing:2.8 reason=2 value=0\n"
           "approved 3 0: phases=2 phase=1 by=1.7 changed=4 now changing:1.7 reason=0 value=0\n");
    CHECK(ha_gs_leave(token, &leave) == HA_GS_BAD_MEMBER_TOKEN);

    ha_gs_group_attributes_t plain = {.gs_group_name = "db"};
    CHECK(join(-1, &plain) == HA_GS_OK);
    EXPECT("error 1 1\n");
    CHECK(ha_gs_goodbye(token) == HA_GS_BAD_MEMBER_TOKEN);
    CHECK(join(9, &plain) == HA_GS_OK);
    EXPECT("approved 1 0: phases=1 phase=1 by=1.9 changed=4 now:1.9 changing:1.9 value=0\n");
    CHECK(ha_gs_goodbye(token) == HA_GS_OK && ha_gs_goodbye(token) == HA_GS_BAD_MEMBER_TOKEN);
    CHECK(join(10, &plain) == HA_GS_OK);
    EXPECT("approved 1 0: phases=1 phase=1 by=1.10 changed=4 now:1.10 changing:1.10 value=0\n"
           "approved 1 0: phases=1 phase=1 by=2.8 changed=4 now:1.10:2.8 changing:2.8 value=0\n"
           "approved 2 0: phases=1 phase=1 by=0.0 changed=4 now:1.10 changing:2.8 reason=1 value=0\n");

    message.gs_message_request = (ha_gs_message_request_t){HA_GS_1_PHASE, 0, {3, "bye"}};
    CHECK(ha_gs_send_message(token, &message) == HA_GS_NO_INIT);
    CHECK(ha_gs_dispatch(HA_GS_BLOCKING) == HA_GS_NO_INIT && !strcmp(came, "announced 40\n"));
    CHECK(ha_gs_dispatch(HA_GS_NON_BLOCKING) == HA_GS_NO_INIT);
    CHECK(init(&descriptor) == HA_GS_OK && ha_gs_quit() == HA_GS_OK && ha_gs_quit() == HA_GS_NO_INIT);

    int here = socket(AF_INET, SOCK_DGRAM, 0);
    struct sockaddr_in at;
    socklen_t size = sizeof at;
    CHECK(!getsockname(daemon_socket, (struct sockaddr *)&at, &size) &&
          sendto(here, "", 1, 0, (struct sockaddr *)&at, sizeof at) == 1);
    pthread_join(daemon, NULL);
    CHECK(known.next == COUNT);
    close(here);
    close(daemon_socket);
    unlink(getenv("HAGS_SETTINGS"));
    puts("the C client is what a program of the Group Services interface uses");
}
