/* What a program is notified of. What a daemon does not tell its clients is found here by comparing one event with the one
 * before, or is not known; what daemons tell that write entries is taken from these, and `entry_of` is the one place where
 * that is asked. */
#include "ha_gs_internal.h"

#include <stdio.h>
#include <stdlib.h>

/* ---- Parts of notifications ---- */

static void keep_members(members *to, hags_members from) {
    to->count = 0;
    for (size_t at = 0; at < from.count && at < MOST_MEMBERS; at++) to->list[to->count++] = provider_of(from.list[at]);
}

static bool is_among(const members *list, ha_gs_provider_t one) {
    for (int at = 0; at < list->count; at++)
        if (list->list[at].gs_provider_id == one.gs_provider_id) return true;
    return false;
}

/* Those of `more` that `list` has not. */
static void keep_others(members *to, const members *more, const members *list) {
    to->count = 0;
    for (int at = 0; at < more->count; at++)
        if (!is_among(list, more->list[at])) to->list[to->count++] = more->list[at];
}

static void keep_text(text *to, hags_bytes from) {
    to->is_known = from.bytes != NULL;
    to->length = from.length < MOST_VALUE ? (int)from.length : MOST_VALUE;
    if (from.bytes) memcpy(to->bytes, from.bytes, (size_t)to->length);
    to->bytes[to->length] = 0;
}

static bool is_text(const text *it, hags_bytes other) {
    return it->is_known && (size_t)it->length == other.length && !memcmp(it->bytes, other.bytes, other.length);
}

static ha_gs_membership_t *membership(ha_gs_membership_t *out, members *it) {
    *out = (ha_gs_membership_t){it->count, it->list};
    return out;
}

static ha_gs_state_value_t *state_value(ha_gs_state_value_t *out, text *it) {
    *out = (ha_gs_state_value_t){it->length, it->bytes};
    return it->is_known ? out : NULL;
}

/* Attributes as a program of this interface has them. A limit of ticks is rounded up to seconds. */
static void give_attributes(ha_gs_group_attributes_t *out, provider *it) {
    const hags_attributes *from = &it->running.attributes;
    memset(out, 0, sizeof *out);
    out->gs_version = out->gs_client_version = HA_GS_RELEASE;
    out->gs_sizeof_group_attributes = (short)sizeof *out;
    out->gs_batch_control = (ha_gs_batch_ctrl_t)from->batch;
    out->gs_num_phases = from->by_vote ? HA_GS_N_PHASE : HA_GS_1_PHASE;
    out->gs_source_reflection_num_phases = from->source_by_vote ? HA_GS_N_PHASE : HA_GS_1_PHASE;
    out->gs_group_default_vote = from->rejects ? HA_GS_VOTE_REJECT : HA_GS_VOTE_APPROVE;
    out->gs_merge_control = HA_GS_DISSOLVE_MERGE;
    out->gs_time_limit = (ha_gs_time_limit_t)((from->limit + TICKS_OF_A_SECOND - 1) / TICKS_OF_A_SECOND);
    out->gs_source_reflection_time_limit =
        (ha_gs_time_limit_t)((from->source_limit + TICKS_OF_A_SECOND - 1) / TICKS_OF_A_SECOND);
    out->gs_group_name = it->group;
    out->gs_source_group_name = *it->running.source_group ? it->running.source_group : NULL;
}

/* ---- What an entry says ---- */

/* The entry that is heard, where this daemon told of it; else NULL, and all that only it says is not known. */
static const hags_put *entry_of(const hags_heard *heard) {
    const hags_put *put = ha_gs_session.put ? &ha_gs_session.put->put : NULL;
    bool is_it = put && put->place == heard->place && put->view.number == heard->view.number &&
                 put->view.coordinator == heard->view.coordinator && put->view.incarnation == heard->view.incarnation &&
                 !strcmp(put->group, heard->group);
    return is_it ? put : NULL;
}

static ha_gs_leave_reason_t reason_at(const char **causes) {
    const char *cause = strchr(*causes, ':'), *next = cause ? strchr(cause, ',') : NULL;
    if (!cause) return HA_GS_VOLUNTARY_OR_EXPELLED;
    *causes = next ? next + 1 : cause + 1;
    return cause[1] == 'd' ? HA_GS_HOST_LEAVE_FAILED : cause[1] == 'c' ? HA_GS_CAST_OUT_LEAVE : HA_GS_PROVIDER_LEAVE_FAILED;
}

/* A protocol begins. */
static void begin(protocol *it, const hags_heard *heard, const hags_put *put) {
    memset(it, 0, sizeof *it);
    it->kind = heard->kind;
    it->phase = 1;
    it->phases = heard->step == HAGS_ONCE ? HA_GS_1_PHASE : HA_GS_N_PHASE;
    it->has_entry = put != NULL;
    if (!put) return;
    it->asker = provider_of(put->asker);
    keep_members(&it->changing, put->providers);
    if (put->kind == HAGS_LEAVE) keep_members(&it->changing, (hags_members){1, &put->asker});
    if (put->kind == HAGS_JOIN && it->changing.count == 1) it->asker = it->changing.list[0];
    const char *causes = put->kind == HAGS_FAIL ? put->detail : "";
    for (int at = 0; at < it->changing.count; at++) it->reasons[at] = reason_at(&causes);
    it->is_cast_out = put->kind == HAGS_FAIL && it->changing.count && it->reasons[0] == HA_GS_CAST_OUT_LEAVE;
    if (put->kind == HAGS_STATE) keep_text(&it->value, put->value);
    if (put->kind == HAGS_MESSAGE) keep_text(&it->message, put->value);
    if (put->kind == HAGS_REFLECT) keep_text(&it->source, put->value);
    it->attributes = put->attributes;
    if (put->attributes.source) snprintf(it->source_group, sizeof it->source_group, "%s", put->attributes.source);
}

/* How the votes of a phase came about, by the words behind each `=`. */
static ha_gs_summary_code_t summary_of(const hags_put *put) {
    unsigned summary = HA_GS_NO_SUMMARY;
    for (const char *at = put && put->detail ? put->detail : ""; (at = strchr(at, '='));) {
        at++;
        if (at[0] == 'R') summary |= HA_GS_EXPLICIT_REJECT;
        if (at[0] != 'L' && at[0] != 'F') continue;
        summary |= at[0] == 'L' ? HA_GS_TIME_LIMIT_EXCEEDED : HA_GS_PROVIDER_FAILED;
        summary |= at[1] == 'A' ? HA_GS_DEFAULT_APPROVE : HA_GS_DEFAULT_REJECT;
    }
    return (ha_gs_summary_code_t)summary;
}

/* ---- Notifications of providers ---- */

static ha_gs_request_t request_of(const protocol *it) {
    static const ha_gs_request_t requests[] = {
        HA_GS_JOIN, HA_GS_LEAVE, HA_GS_FAILURE_LEAVE, HA_GS_EXPEL, HA_GS_STATE_VALUE_CHANGE,
        HA_GS_PROVIDER_MESSAGE, HA_GS_GROUP_ATTRIBUTE_CHANGE, HA_GS_SOURCE_STATE_REFLECTION};
    return it->is_cast_out ? HA_GS_CAST_OUT : it->kind < HAGS_NO_KIND ? requests[it->kind] : HA_GS_RESPONSIVENESS;
}

/* The parts to which a proposal points. */
typedef struct {
    ha_gs_proposal_t proposal;
    members now;
    text value;
    ha_gs_membership_t current, changing;
    ha_gs_leave_array_t leave;
    ha_gs_state_value_t current_value, proposed_value, source_value;
    ha_gs_provider_message_t message;
    ha_gs_group_attributes_t attributes;
} proposal_parts;

static bool is_membership_change(hags_kind kind) {
    return kind == HAGS_JOIN || kind == HAGS_LEAVE || kind == HAGS_FAIL || kind == HAGS_EXPEL;
}

/* The proposal of what runs, or of what has ended and was approved or not. */
static void make_proposal(proposal_parts *out, provider *it, const hags_heard *heard, bool is_approved) {
    protocol *running = &it->running;
    ha_gs_proposal_t *proposal = &out->proposal;
    unsigned changed = HA_GS_NO_CHANGE;
    memset(out, 0, sizeof *out);
    proposal->gs_phase_info = (ha_gs_phase_info_t){running->phases, running->phase};
    proposal->gs_proposed_by = running->asker;
    keep_members(&out->now, heard->members);
    keep_text(&out->value, heard->value);
    proposal->gs_current_providers = membership(&out->current, &out->now);
    proposal->gs_current_state_value = state_value(&out->current_value, &out->value);
    if (is_membership_change(running->kind) && running->changing.count) {
        proposal->gs_changing_providers = membership(&out->changing, &running->changing);
        out->leave = (ha_gs_leave_array_t){running->changing.count, running->reasons};
        if (running->kind != HAGS_JOIN) proposal->gs_leave_info = &out->leave;
        changed |= is_approved ? HA_GS_UPDATED_MEMBERSHIP : HA_GS_PROPOSED_MEMBERSHIP;
    }
    if (running->value.is_known && !is_approved) {
        proposal->gs_proposed_state_value = state_value(&out->proposed_value, &running->value);
        changed |= HA_GS_PROPOSED_STATE_VALUE;
    }
    bool has_new_value = running->kind == HAGS_STATE || (it->value.is_known && !is_text(&it->value, heard->value));
    if (is_approved && has_new_value) changed |= HA_GS_UPDATED_STATE_VALUE;
    if (running->message.is_known) {
        out->message = (ha_gs_provider_message_t){running->message.length, running->message.bytes};
        proposal->gs_provider_message = &out->message;
        changed |= HA_GS_UPDATED_PROVIDER_MESSAGE;
    }
    if (running->source.is_known) {
        proposal->gs_source_state_value = state_value(&out->source_value, &running->source);
        changed |= HA_GS_REFLECTED_SOURCE_STATE_VALUE;
    }
    if (running->has_entry && running->kind == HAGS_ATTRIBUTES) {
        give_attributes(&out->attributes, it);
        proposal->gs_new_group_attributes = &out->attributes;
        changed |= is_approved ? HA_GS_UPDATED_GROUP_ATTRIBUTES : HA_GS_PROPOSED_GROUP_ATTRIBUTES;
    }
    proposal->gs_whats_changed = (ha_gs_whats_changed_t)changed;
}

/* Votes this provider on what runs? Who would be removed does not; where the entry is not told nobody is known to be. */
static bool is_voter(const provider *it) {
    const protocol *running = &it->running;
    return running->kind == HAGS_JOIN || !is_among(&running->changing, provider_of(it->id));
}

/* A phase begins; the summary is that of the phase before it, if there was one. */
static void give_phase(provider *it, const hags_heard *heard, const hags_put *put) {
    proposal_parts parts;
    make_proposal(&parts, it, heard, false);
    ha_gs_n_phase_notification_t notification = {
        HA_GS_N_PHASE_NOTIFICATION, it->token, request_of(&it->running), summary_of(put), it->limit, &parts.proposal};
    if (is_voter(it)) it->callbacks.gs_n_phase_protocol_callback(&notification);
}

/* Who changed is seen by the members before and after it, where no entry says it. */
static void find_changing(provider *it, const hags_heard *heard) {
    protocol *running = &it->running;
    members before, after;
    if (running->has_entry || !is_membership_change(running->kind)) return;
    keep_members(&before, (hags_members){it->count, it->list});
    keep_members(&after, heard->members);
    if (running->kind == HAGS_JOIN) keep_others(&running->changing, &after, &before);
    else keep_others(&running->changing, &before, &after);
    for (int at = 0; at < running->changing.count && running->kind == HAGS_FAIL; at++)
        running->reasons[at] = HA_GS_PROVIDER_LEAVE_FAILED;
    bool is_own = running->kind == HAGS_JOIN || running->kind == HAGS_LEAVE;
    if (is_own && running->changing.count == 1) running->asker = running->changing.list[0];
}

static void give_end(provider *it, const hags_heard *heard, const hags_put *put, bool is_approved) {
    proposal_parts parts;
    find_changing(it, heard);
    make_proposal(&parts, it, heard, is_approved);
    ha_gs_approved_notification_t notification = {
        is_approved ? HA_GS_APPROVED_NOTIFICATION : HA_GS_REJECTED_NOTIFICATION, it->token, request_of(&it->running),
        summary_of(put), &parts.proposal};
    if (is_approved) it->callbacks.gs_protocol_approved_callback(&notification);
    else it->callbacks.gs_protocol_rejected_callback(&notification);
}

static void announce(provider *it, ha_gs_summary_code_t summary, members *whom) {
    ha_gs_membership_t list;
    ha_gs_announcement_notification_t notification = {
        HA_GS_ANNOUNCEMENT_NOTIFICATION, it->token, summary, whom ? membership(&list, whom) : NULL};
    if (it->callbacks.gs_announcement_callback) it->callbacks.gs_announcement_callback(&notification);
}

static provider *provider_with(hags_provider id) {
    for (provider *it = ha_gs_session.providers; it; it = it->next)
        if (!it->is_gone && hags_is_same(it->id, id)) return it;
    return NULL;
}

static bool has_member(hags_members list, hags_provider one) {
    for (size_t at = 0; at < list.count; at++)
        if (hags_is_same(list.list[at], one)) return true;
    return false;
}

static void give_heard(const hags_heard *heard) {
    provider *it = provider_with(heard->provider);
    const hags_put *put = entry_of(heard);
    members late;
    if (!it) return;
    switch (heard->step) {
        case HAGS_ONCE:
            begin(&it->running, heard, put);
            give_end(it, heard, NULL, true);
            break;
        case HAGS_BEGIN:
            begin(&it->running, heard, put);
            give_phase(it, heard, NULL);
            break;
        case HAGS_PHASE:
            it->running.phase++;
            if (put && put->value.bytes) keep_text(&it->running.value, put->value);
            give_phase(it, heard, put);
            break;
        case HAGS_APPROVE:
        case HAGS_REJECT: give_end(it, heard, put, heard->step == HAGS_APPROVE); break;
        case HAGS_LATE_VOTERS:
            if (put) keep_members(&late, put->providers);
            announce(it, HA_GS_TIME_LIMIT_EXCEEDED, put ? &late : NULL);
            break;
    }
    it->count = heard->members.count < MOST_MEMBERS ? heard->members.count : MOST_MEMBERS;
    if (it->count) memcpy(it->list, heard->members.list, it->count * sizeof *it->list);
    keep_text(&it->value, heard->value);
    bool is_end = heard->step == HAGS_ONCE || heard->step == HAGS_APPROVE || heard->step == HAGS_REJECT;
    if (is_end && !has_member(heard->members, it->id)) it->is_gone = true;
}

static void give_told(const hags_told *told) {
    provider *it = provider_with(told->provider);
    if (!it) return;
    bool is_join = told->request == it->id.join, is_dissolved = !strcmp(told->code, "DISSOLVED");
    if (told->request) {
        ha_gs_delayed_error_notification_t notification = {HA_GS_DELAYED_ERROR_NOTIFICATION, it->token,
                                                           is_join ? HA_GS_JOIN : it->asked, ha_gs_code_named(told->code)};
        if (ha_gs_session.delayed_error) ha_gs_session.delayed_error(&notification);
    }
    if (is_dissolved) announce(it, HA_GS_GROUP_DISSOLVED, NULL);
    if (is_join || is_dissolved) it->is_gone = true;
}

/* ---- Notifications of subscribers ---- */

/* Is this of a later view, or of a later place in the same one? */
static bool is_later(const hags_noted *one, const hags_noted *other) {
    const hags_view *view = &one->view, *before = &other->view;
    if (view->number != before->number) return view->number > before->number;
    if (view->coordinator != before->coordinator) return view->coordinator > before->coordinator;
    if (view->incarnation != before->incarnation) return view->incarnation > before->incarnation;
    return one->has_place && (!other->has_place || one->place > other->place);
}

static void note(subscriber *it, const hags_noted *noted) {
    hags_members list = noted->members;
    hags_bytes value = noted->value;
    members now, joining, leaving;
    text new_value;
    ha_gs_membership_t full, in, out;
    ha_gs_state_value_t state;
    unsigned type = 0;
    keep_members(&now, list);
    keep_text(&new_value, value);
    keep_others(&joining, &now, &it->before);
    keep_others(&leaving, &it->before, &now);
    if (joining.count) type |= HA_GS_SUBSCRIPTION_DELTA_JOIN;
    if (leaving.count) type |= HA_GS_SUBSCRIPTION_DELTA_LEAVE;
    if (type || !it->was_noted) type |= HA_GS_SUBSCRIPTION_MEMBERSHIP;
    if (!is_text(&it->value, value)) type |= HA_GS_SUBSCRIPTION_STATE;
    type &= (unsigned)it->control;
    if (!now.count && it->before.count) type |= HA_GS_SUBSCRIPTION_DISSOLVED;
    ha_gs_subscription_notification_t notification = {
        HA_GS_SUBSCRIPTION_NOTIFICATION, it->token, (ha_gs_subscription_type_t)type,
        type & HA_GS_SUBSCRIPTION_STATE ? state_value(&state, &new_value) : NULL,
        type & HA_GS_SUBSCRIPTION_MEMBERSHIP ? membership(&full, &now) : NULL,
        type & HA_GS_SUBSCRIPTION_DELTA_JOIN ? membership(&in, &joining) : NULL,
        type & HA_GS_SUBSCRIPTION_DELTA_LEAVE ? membership(&out, &leaving) : NULL};
    it->was_noted = true;
    it->newest = *noted;
    it->before = now;
    it->value = new_value;
    if (type) it->callback(&notification);
}

static void give_noted(const hags_noted *noted) {
    for (subscriber *it = ha_gs_session.subscribers; it; it = it->next) {
        bool is_news = !it->was_noted || is_later(noted, &it->newest);
        if (!it->is_gone && !strcmp(it->group, noted->group) && is_news) note(it, noted);
    }
}

/* What the daemon does not note, since nothing has changed. */
static void give_first(void) {
    for (subscriber *it = ha_gs_session.subscribers; it && !ha_gs_session.has_quit; it = it->next) {
        hags_event *first = it->first;
        it->first = NULL;
        if (first && !it->is_gone) note(it, &first->noted);
        free(first);
    }
}

/* ---- All of them ---- */

/* The daemon is gone, and with it all that this process had there. */
void ha_gs_give_death(void) {
    for (provider *it = ha_gs_session.providers; it; it = it->next)
        if (!it->is_gone) announce(it, HA_GS_GROUP_SERVICES_DIED_HORRIBLY, NULL);
    for (subscriber *it = ha_gs_session.subscribers; it; it = it->next) {
        ha_gs_subscription_notification_t notification = {
            HA_GS_SUBSCRIPTION_NOTIFICATION, it->token, HA_GS_SUBSCRIPTION_GS_HAS_DIED, NULL, NULL, NULL, NULL};
        if (!it->is_gone) it->callback(&notification);
    }
}

void ha_gs_give_events(void) {
    give_first();
    for (hags_event *event; !ha_gs_session.has_quit && (event = hags_next(ha_gs_session.client));) {
        switch (event->what) {
            case HAGS_HEARD: give_heard(&event->heard); break;
            case HAGS_TOLD: give_told(&event->told); break;
            case HAGS_NOTED: give_noted(&event->noted); break;
            case HAGS_PUT:
                free(ha_gs_session.put);
                ha_gs_session.put = event;
                continue;
            default: break;
        }
        free(event);
    }
}
