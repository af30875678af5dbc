/* A client of a hags daemon on this or another machine, over UDP: it joins groups, sets their values, votes, and hears
 * what every member hears, in the same order. C11, Linux, the C library alone.
 *
 *     hags *client = hags_new(settings, 1);                        settings: the text that the daemon reads
 *     if (client && hags_open(client, "web") == HAGS_OK && hags_join(client, "db", 7, NULL) == HAGS_OK)
 *         while (hags_wait(client, 5000) == HAGS_OK) {
 *             hags_event *event = hags_next(client);
 *             if (event) puts(event->line);
 *             free(event);
 *         }
 *     hags_delete(client);
 *
 * The daemon runs with `--remote`. It answers, and never begins: so a client has to come again and again, by hags_wait,
 * by a call, or by hags_dispatch whenever hags_fd is readable. A daemon with `--silence` ends the session of a client of
 * which nothing came for so many tenths of a second, 50 as daemons are shipped: it leaves its groups, and its name is
 * free. So a program that works for longer than that between two turns lets a thread of its own dispatch. A daemon without
 * `--silence` keeps a client until it says goodbye: one that is killed stays a member, which never votes.
 *
 * A `hags` is used by one thread at a time; several of them by several threads. Nothing here is global. */
#ifndef HAGS_H
#define HAGS_H

#include <stdbool.h>
#include <stddef.h>
#include <stdint.h>

#ifdef __cplusplus
extern "C" {
#endif

#define HAGS_HOSTS "HostMembership" /* of this group a subscriber is noted the nodes of each view */
#define HAGS_MOST_NAME 16           /* bytes of a client's name */
#define HAGS_MOST_GROUP 32          /* bytes of a group's name */
#define HAGS_MOST_LINE 1100         /* bytes of a call, its texts as they are spelled there */

typedef struct hags hags;

/* What becomes of a call. */
typedef enum {
    HAGS_OK,        /* the daemon took the call; or what was asked for is done */
    HAGS_REFUSED,   /* the daemon refused it, and it did nothing: hags_refusal says why */
    HAGS_LATE,      /* no answer came in time: the call is under way, and the next one waits for its answer first */
    HAGS_BUSY,      /* the call before it has no answer yet, and this one was not made */
    HAGS_BAD,       /* no daemon would take such a call, or no session is open: nothing was sent */
    HAGS_LOST,      /* the daemon was started anew, or hags_was_ended: hags_open begins another one, which joins anew */
    HAGS_FULL,      /* the daemon keeps 1,024 clients, and takes no more */
    HAGS_NO_MEMORY, /* memory has run out: nothing that comes is lost, and a call that was made is under way */
    HAGS_FAULT      /* the system failed: errno says how */
} hags_result;

/* A result in words. The text stays. */
const char *hags_text(hags_result result);

/* Bytes, with a 0 behind them that does not count. Where there is no value `bytes` is NULL. */
typedef struct {
    size_t length;
    const char *bytes;
} hags_bytes;

/* The bytes of a string, without the 0 at its end. */
hags_bytes hags_string(const char *text);

/* A membership: one join of one client. Its parts are those of 1.5.7.2: node, incarnation of its daemon, the instance
 * number that the client chose, the number of the request that joined. Of HAGS_HOSTS a member is a node with its
 * incarnation, and the other two are 0. */
typedef struct {
    unsigned node;
    uint32_t incarnation;
    unsigned instance;
    uint32_t join;
} hags_provider;

bool hags_is_same(hags_provider one, hags_provider other);

/* A view, as 3.1.5: its number, and the node that gathered it with its incarnation. */
typedef struct {
    uint32_t number;
    unsigned coordinator;
    uint32_t incarnation;
} hags_view;

/* A protocol, as 3.1.5/2: the view and the place of the entry that began it. */
typedef struct {
    hags_view view;
    uint32_t place;
} hags_protocol;

/* A list of members, in the order in which they joined. */
typedef struct {
    size_t count;
    const hags_provider *list;
} hags_members;

typedef enum {
    HAGS_JOIN,
    HAGS_LEAVE,
    HAGS_FAIL, /* failed members are removed */
    HAGS_EXPEL,
    HAGS_STATE,
    HAGS_MESSAGE,
    HAGS_ATTRIBUTES,
    HAGS_REFLECT, /* the value of the source group has changed */
    HAGS_NO_KIND
} hags_kind;

/* What an entry of a group's list does. */
typedef enum {
    HAGS_ONCE,    /* a proposal that is approved at once */
    HAGS_BEGIN,   /* a vote on a proposal begins, with phase 1 */
    HAGS_PHASE,   /* the next phase of the vote begins */
    HAGS_APPROVE, /* the proposal is approved */
    HAGS_REJECT,  /* it is rejected */
    HAGS_LATE_VOTERS
} hags_step;

/* A call was taken, and asks something of a group. The provider is the caller's membership. */
typedef struct {
    hags_provider provider;
    uint32_t request;
    const char *group;
    hags_kind kind;
} hags_asked;

/* The entry at a place of a group's list, and the members and the value after it. Who heard it is a provider of this
 * client. `kind` is HAGS_NO_KIND but at HAGS_ONCE and HAGS_BEGIN. */
typedef struct {
    hags_provider provider;
    hags_view view;
    const char *group;
    uint32_t place;
    hags_step step;
    hags_kind kind;
    hags_members members;
    hags_bytes value;
} hags_heard;

/* A vote of this client was cast: `A`, `C` or `R`, with a value beside it or not. */
typedef struct {
    hags_provider provider;
    hags_protocol protocol;
    unsigned phase;
    char vote;
    hags_bytes value;
} hags_cast;

/* A call that was taken was refused later: `code`, as "COLLIDE", with what belongs to it, as "3.1.5/2", or "". Where it
 * was a join, and at DISSOLVED, the membership is no more. */
typedef struct {
    hags_provider provider;
    uint32_t request;
    const char *code;
    const char *detail;
} hags_told;

/* The members and the value of a group to which the client subscribes, as they are now. `place` is that of the entry
 * that changed them, where `has_place`; there is none as a view begins. */
typedef struct {
    const char *client;
    hags_view view;
    const char *group;
    bool has_place;
    uint32_t place;
    hags_members members;
    hags_bytes value;
} hags_noted;

/* Attributes of a group. All zero is what NULL stands for: one phase, no batch, approval by default, no limit, no source. */
typedef struct {
    bool by_vote;                                                     /* joins, and the removal of who failed */
    enum { HAGS_SINGLY, HAGS_JOINS, HAGS_FAILURES, HAGS_BOTH } batch; /* which of these begin together */
    bool rejects;                                                     /* the vote of who gives none */
    unsigned limit;                                                   /* ticks that a phase may take, 0 any */
    const char *source;                                               /* the group that this one follows, or NULL */
    bool source_by_vote;
    unsigned source_limit;
} hags_attributes;

/* The entry itself, as `once state 1.5.7.2/3 =red`, directly before it is heard first. Daemons that run with `--entries`
 * tell it; others do not. So who votes has seen what is proposed. What its step and kind have not is zero. */
typedef struct {
    unsigned node;
    hags_view view;
    const char *group;
    uint32_t place;
    const char *entry; /* its text */
    hags_step step;
    hags_kind kind;             /* at HAGS_ONCE and HAGS_BEGIN */
    hags_provider asker;        /* of a leave, expel, state, message, attributes */
    uint32_t request;           /* and its number */
    hags_members providers;     /* who joins, failed, is expelled, is late, or voted */
    const char *detail;         /* those who failed, as `1.5.7.2:died,..`; votes, as `1.5.7.2=A,..`: see hags_mark */
    hags_bytes value;           /* of a state, message or reflection; the value that a phase or approval brings, if any */
    hags_attributes attributes; /* of a join or a change of attributes */
    bool has_source_length;     /* of a join into a group with a source: */
    uint32_t source_length;     /* how long the source's list was */
    hags_protocol protocol;     /* which a phase, approval, rejection or late voters are of; of a reflection the source's place */
    unsigned phase;             /* that closed, or in which they are late */
} hags_put;

/* What an entry says of the provider at a place of `providers`: why it failed, `died`, `gone` (its client is) or `cast` (out);
 * or what counted for it, its vote `A`, `C` or `R`, or the default, `LA` or `LR` where it was late, `FA` or `FR` where it had
 * failed. Of other entries, and beyond the last provider, no bytes. No 0 stands behind them. */
hags_bytes hags_mark(const hags_put *put, size_t at);

/* HAGS_OTHER is a line that this client cannot take apart, as a later daemon may write one. */
typedef enum { HAGS_ASKED, HAGS_HEARD, HAGS_CAST, HAGS_TOLD, HAGS_NOTED, HAGS_PUT, HAGS_OTHER } hags_what;

/* What a client heard. All that it points to is in the same piece of memory, which `free` gives back. */
typedef struct {
    hags_what what;
    const char *line; /* the line of the transcript, of `length` bytes without its line feed */
    size_t length;
    union {
        hags_asked asked;
        hags_heard heard;
        hags_cast cast;
        hags_told told;
        hags_noted noted;
        hags_put put;
    };
} hags_event;

/* The event that a line is, of so many bytes; NULL where memory has run out. */
hags_event *hags_event_of(const char *line, size_t length);

/* A client of the daemon of a node, without a session. `settings` is the text that the daemon reads. NULL where it has no
 * such node or no address of it (EINVAL), or where memory (ENOMEM) or the system failed; errno says so. */
hags *hags_new(const char *settings, int node);

/* Gives it back, without a goodbye. NULL is none. */
void hags_delete(hags *client);

/* Begins a session under a name of 1 to 16 letters, digits, `_`, `-` and `.`, where none is open; what was not read of the
 * last one is gone. HAGS_REFUSED with EXISTS: a client of this name is there, or was and said no goodbye. */
hags_result hags_open(hags *client, const char *name);

/* Says goodbye, by which all memberships end. What was heard before may be read on. */
hags_result hags_close(hags *client);

bool hags_is_open(const hags *client);

/* How long a call waits for its answer, in milliseconds; 10,000 at first. With 0 a call does not wait: it is HAGS_LATE where
 * it was made, hags_answer says what became of it, and the next call is HAGS_BUSY until then. */
void hags_patience(hags *client, int milliseconds);

/* How long at most the client waits before it asks the daemon for news, while nothing happens, in milliseconds from 1 to
 * 1,000; 20 at first, which is 50 datagrams a second. An event may be so late. A client that is dispatched whenever hags_fd
 * is readable never waits for longer, so no `--silence` ends it while its datagrams arrive. */
void hags_idle(hags *client, int milliseconds);

/* The calls. Each waits for the daemon's answer. A group's leader may refuse later what the daemon took: then HAGS_TOLD is
 * heard, with the number of hags_request. `by_vote` is whether the members vote on it.
 *
 * A join makes the client a provider once HAGS_HEARD has it among the members. All members give the same attributes, and
 * those of one node different instance numbers, 1 to 65,535. */
hags_result hags_join(hags *client, const char *group, unsigned instance, const hags_attributes *attributes);
hags_result hags_leave(hags *client, const char *group, bool by_vote);
hags_result hags_expel(hags *client, const char *group, bool by_vote, hags_members members);
hags_result hags_state(hags *client, const char *group, bool by_vote, hags_bytes value);
hags_result hags_message(hags *client, const char *group, bool by_vote, hags_bytes text);
hags_result hags_change(hags *client, const char *group, bool by_vote, const hags_attributes *attributes);
/* `vote` is `A`, `C` or `R`; a value whose bytes are not NULL is proposed in place of the one that was. */
hags_result hags_vote(hags *client, const char *group, char vote, hags_bytes value);
hags_result hags_subscribe(hags *client, const char *group);
hags_result hags_unsubscribe(hags *client, const char *group);
/* Any call, as docs/formats.md has them, with the client's name in it. */
hags_result hags_call(hags *client, const char *line);

/* How a group stands at the daemon now, or HAGS_HOSTS, while a session is open: what a subscription does not tell, which notes
 * changes. The event is a HAGS_NOTED, which the caller frees, and what is noted of a later view, or of a later place in it, is
 * newer; NULL is a group that the daemon does not know. It is no call, and waits for the daemon as long as a call does. */
hags_result hags_look(hags *client, const char *group, hags_event **event);

/* What became of the last call: HAGS_OK, HAGS_REFUSED, or HAGS_LATE while it has no answer; HAGS_LOST, HAGS_FULL. */
hags_result hags_answer(const hags *client);
/* Waits for that answer, as long as a call does. */
hags_result hags_settle(hags *client);
/* Why the last call was refused, as "EXISTS" or "BAD_PARAMETER value"; "" where it was not, or the line is no call that
 * this client may make. It stays until the next call. */
const char *hags_refusal(const hags *client);
/* The provider for which the last call asked something, and the number of its request; 0 where it asked nothing yet. */
hags_provider hags_asker(const hags *client);
uint32_t hags_request(const hags *client);

/* The next event, or NULL where none was heard. The caller frees it. It sends and receives nothing. */
hags_event *hags_next(hags *client);

/* A descriptor that is readable when hags_dispatch has something to do, for select, poll or epoll. Use it for nothing
 * else. It stays the same for the life of the client. */
int hags_fd(const hags *client);

/* Sends what is due and takes what came. It never waits. HAGS_LOST and HAGS_FULL end the session. */
hags_result hags_dispatch(hags *client);

/* Dispatches until an event was heard, or for so many milliseconds; less than 0 is without an end. HAGS_LATE: none was. */
hags_result hags_wait(hags *client, int milliseconds);

/* For how many milliseconds the daemon has not been heard. One that lives answers many times a second. */
long hags_silence(const hags *client);

/* Whether HAGS_LOST came since the daemon has ended the session, as nothing came from this client for too long. What it held
 * others may hold by now. */
bool hags_was_ended(const hags *client);

/* The incarnation of the daemon in this session; 0 before its first answer. */
uint32_t hags_incarnation(const hags *client);

/* Writes a text as a call has it, with a 0 behind it: how long it is, which may be more than fits. */
size_t hags_spell(hags_bytes text, char *out, size_t room);

#ifdef __cplusplus
}
#endif
#endif
