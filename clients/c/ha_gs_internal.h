/* What the files of the Group Services interface share, and programs that use it do not see:
 *
 *   ha_gs.c          the session of this process, and codes
 *   ha_gs_calls.c    what a program asks for, as a provider or a subscriber
 *   ha_gs_notify.c   what it is notified of, made of what the client hears */
#ifndef HA_GS_INTERNAL_H
#define HA_GS_INTERNAL_H

#include "ha_gs.h"
#include "hags.h"

#include <string.h>

enum {
    MOST_MEMBERS = 64,
    MOST_VALUE = 1024, /* bytes of a value or a message, in any view */
    TICKS_OF_A_SECOND = 10
};

typedef struct {
    int count;
    ha_gs_provider_t list[MOST_MEMBERS];
} members;

typedef struct {
    bool is_known;
    int length;
    char bytes[MOST_VALUE + 1];
} text;

/* What is known of the protocol that runs in a group, or that has just ended there. */
typedef struct {
    hags_kind kind;
    int phase;
    bool has_entry, is_cast_out;
    ha_gs_num_phases_t phases;
    ha_gs_provider_t asker;
    members changing;
    ha_gs_leave_reason_t reasons[MOST_MEMBERS];
    text value, message, source;
    hags_attributes attributes;
    char source_group[HA_GS_MAX_GROUP_NAME_LENGTH + 1];
} protocol;

typedef struct provider {
    struct provider *next;
    ha_gs_token_t token;
    hags_provider id;
    char group[HA_GS_MAX_GROUP_NAME_LENGTH + 1];
    ha_gs_join_request_t callbacks;
    ha_gs_time_limit_t limit;
    bool is_gone;
    ha_gs_request_t asked; /* its last request */
    size_t count;          /* of the members as they were heard last */
    hags_provider list[MOST_MEMBERS];
    text value;
    protocol running;
} provider;

typedef struct subscriber {
    struct subscriber *next;
    ha_gs_token_t token;
    char group[HA_GS_MAX_GROUP_NAME_LENGTH + 1];
    ha_gs_subscription_ctrl_t control;
    ha_gs_subscription_cb_t *callback;
    bool is_gone, was_noted;
    hags_event *first; /* how the group stood as it was subscribed, until that is notified */
    hags_noted newest; /* of which only the view and the place are kept */
    members before;
    text value;
} subscriber;

/* All that this process has. */
typedef struct {
    hags *client;
    int node;
    ha_gs_delayed_error_cb_t *delayed_error;
    provider *providers;
    subscriber *subscribers;
    ha_gs_token_t last_token;
    hags_event *put; /* the entry that the daemon told last, if it tells of any */
    bool is_giving, has_quit;
} session;

static inline ha_gs_provider_t provider_of(hags_provider id) {
    ha_gs_provider_t it;
    memset(&it, 0, sizeof it);
    it.gs_instance_number = (short)id.instance;
    it.gs_node_number = (short)id.node;
    return it;
}

#pragma GCC visibility push(hidden)

extern session ha_gs_session;

/* The code of a name that a daemon gives, and of what a call became. */
ha_gs_rc_t ha_gs_code_named(const char *name);
ha_gs_rc_t ha_gs_code_of(hags_result result);

/* Gives back the providers and subscribers that are no more. */
void ha_gs_drop_gone(void);

/* Notifies of all that was heard, until a callback quits; and of the end of the daemon. */
void ha_gs_give_events(void);
void ha_gs_give_death(void);

#pragma GCC visibility pop
#endif
