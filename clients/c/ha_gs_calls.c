/* What a program asks for, as a provider or a subscriber. */
#include "ha_gs_internal.h"

#include <stdlib.h>

enum { LONGEST_LIMIT = 10000 / TICKS_OF_A_SECOND /* seconds */ };

/* ---- Joining ---- */

static ha_gs_rc_t check_name(const char *name) {
    if (!name || !*name) return HA_GS_BAD_PARAMETER;
    return strlen(name) > HA_GS_MAX_GROUP_NAME_LENGTH ? HA_GS_NAME_TOO_LONG : HA_GS_OK;
}

/* The attributes as a daemon takes them. */
static ha_gs_rc_t take_attributes(const ha_gs_group_attributes_t *from, hags_attributes *to) {
    if (!from) return HA_GS_BAD_PARAMETER;
    if (from->gs_merge_control != HA_GS_DISSOLVE_MERGE) return HA_GS_NOT_SUPPORTED;
    bool has_source = from->gs_source_group_name && *from->gs_source_group_name;
    bool is_good = from->gs_num_phases <= HA_GS_N_PHASE && from->gs_source_reflection_num_phases <= HA_GS_N_PHASE &&
                   from->gs_batch_control <= HA_GS_BATCH_BOTH && from->gs_group_default_vote <= HA_GS_VOTE_REJECT &&
                   from->gs_group_default_vote != HA_GS_VOTE_CONTINUE && from->gs_time_limit <= LONGEST_LIMIT &&
                   from->gs_source_reflection_time_limit <= LONGEST_LIMIT;
    if (!is_good) return HA_GS_BAD_GROUP_ATTRIBUTES;
    if (has_source && check_name(from->gs_source_group_name) != HA_GS_OK) return HA_GS_INVALID_SOURCE_GROUP;
    *to = (hags_attributes){
        .by_vote = from->gs_num_phases == HA_GS_N_PHASE,
        .batch = (unsigned)from->gs_batch_control,
        .rejects = from->gs_group_default_vote == HA_GS_VOTE_REJECT,
        .limit = (unsigned)from->gs_time_limit * TICKS_OF_A_SECOND,
        .source = has_source ? from->gs_source_group_name : NULL,
        .source_by_vote = has_source && from->gs_source_reflection_num_phases == HA_GS_N_PHASE,
        .source_limit = has_source ? (unsigned)from->gs_source_reflection_time_limit * TICKS_OF_A_SECOND : 0,
    };
    return HA_GS_OK;
}

ha_gs_rc_t ha_gs_join(ha_gs_token_t *provider_token, const ha_gs_proposal_info_t *proposal_info) {
    if (!ha_gs_session.client) return HA_GS_NO_INIT;
    if (!provider_token || !proposal_info) return HA_GS_BAD_PARAMETER;
    const ha_gs_join_request_t *request = &proposal_info->gs_join_request;
    hags_attributes attributes;
    ha_gs_rc_t code = take_attributes(request->gs_group_attributes, &attributes);
    if (code == HA_GS_OK) code = check_name(request->gs_group_attributes->gs_group_name);
    if (code != HA_GS_OK) return code;
    bool has_callbacks = request->gs_n_phase_protocol_callback && request->gs_protocol_approved_callback &&
                         request->gs_protocol_rejected_callback;
    if (!has_callbacks) return HA_GS_BAD_PARAMETER;
    provider *it = calloc(1, sizeof *it);
    if (!it) return HA_GS_NO_MEMORY;
    strcpy(it->group, request->gs_group_attributes->gs_group_name);
    unsigned instance = (unsigned short)request->gs_provider_instance;
    code = ha_gs_code_of(hags_join(ha_gs_session.client, it->group, instance, &attributes));
    if (code != HA_GS_OK) {
        free(it);
        return code;
    }
    it->token = *provider_token = ++ha_gs_session.last_token;
    it->id = hags_asker(ha_gs_session.client);
    it->callbacks = *request;
    it->limit = request->gs_group_attributes->gs_time_limit;
    it->asked = HA_GS_JOIN;
    it->next = ha_gs_session.providers;
    ha_gs_session.providers = it;
    return HA_GS_OK;
}

/* ---- The calls of a provider ---- */

/* The provider of a token, NULL where there is none; then `code` says why. */
static provider *provider_of_token(ha_gs_token_t token, ha_gs_rc_t *code) {
    *code = ha_gs_session.client ? HA_GS_BAD_MEMBER_TOKEN : HA_GS_NO_INIT;
    for (provider *it = ha_gs_session.providers; it; it = it->next)
        if (it->token == token && !it->is_gone) {
            *code = HA_GS_OK;
            return it;
        }
    return NULL;
}

/* The same for a call that has a request, which every kind of request but a join or a subscription begins alike. */
static provider *asking(ha_gs_token_t token, const ha_gs_proposal_info_t *info, ha_gs_rc_t *code) {
    provider *it = provider_of_token(token, code);
    bool is_good = info && (info->gs_leave_request.gs_num_phases == HA_GS_1_PHASE ||
                            info->gs_leave_request.gs_num_phases == HA_GS_N_PHASE);
    if (it && !is_good) *code = HA_GS_BAD_PARAMETER;
    return it && is_good ? it : NULL;
}

/* What becomes of a request that was made. */
static ha_gs_rc_t asked(provider *it, ha_gs_request_t what, hags_result result) {
    if (result == HAGS_OK) it->asked = what;
    return ha_gs_code_of(result);
}

static bool is_value(int length, const char *bytes) {
    return length >= 0 && (bytes || !length);
}

/* Bytes as hags.h has them; those of no length are somewhere too, since NULL is no value. */
static hags_bytes bytes_of(int length, const char *bytes) {
    return (hags_bytes){(size_t)length, bytes ? bytes : ""};
}

ha_gs_rc_t ha_gs_change_state_value(ha_gs_token_t provider_token, const ha_gs_proposal_info_t *proposal_info) {
    ha_gs_rc_t code;
    provider *it = asking(provider_token, proposal_info, &code);
    if (!it) return code;
    const ha_gs_state_change_request_t *request = &proposal_info->gs_state_change_request;
    const ha_gs_state_value_t *value = &request->gs_new_state;
    if (!is_value(value->gs_length, value->gs_state)) return HA_GS_BAD_PARAMETER;
    return asked(it, HA_GS_STATE_VALUE_CHANGE,
                 hags_state(ha_gs_session.client, it->group, request->gs_num_phases == HA_GS_N_PHASE,
                            bytes_of(value->gs_length, value->gs_state)));
}

ha_gs_rc_t ha_gs_send_message(ha_gs_token_t provider_token, const ha_gs_proposal_info_t *proposal_info) {
    ha_gs_rc_t code;
    provider *it = asking(provider_token, proposal_info, &code);
    if (!it) return code;
    const ha_gs_message_request_t *request = &proposal_info->gs_message_request;
    const ha_gs_provider_message_t *message = &request->gs_message;
    if (!is_value(message->gs_length, message->gs_message)) return HA_GS_BAD_PARAMETER;
    return asked(it, HA_GS_PROVIDER_MESSAGE,
                 hags_message(ha_gs_session.client, it->group, request->gs_num_phases == HA_GS_N_PHASE,
                              bytes_of(message->gs_length, message->gs_message)));
}

ha_gs_rc_t ha_gs_change_attributes(ha_gs_token_t provider_token, const ha_gs_proposal_info_t *proposal_info) {
    ha_gs_rc_t code;
    provider *it = asking(provider_token, proposal_info, &code);
    hags_attributes attributes;
    if (!it) return code;
    const ha_gs_attribute_change_request_t *request = &proposal_info->gs_attribute_change_request;
    if ((code = take_attributes(request->gs_group_attributes, &attributes)) != HA_GS_OK) return code;
    return asked(it, HA_GS_GROUP_ATTRIBUTE_CHANGE,
                 hags_change(ha_gs_session.client, it->group, request->gs_num_phases == HA_GS_N_PHASE, &attributes));
}

ha_gs_rc_t ha_gs_leave(ha_gs_token_t provider_token, const ha_gs_proposal_info_t *proposal_info) {
    ha_gs_rc_t code;
    provider *it = asking(provider_token, proposal_info, &code);
    if (!it) return code;
    const ha_gs_leave_request_t *request = &proposal_info->gs_leave_request;
    return asked(it, HA_GS_LEAVE, hags_leave(ha_gs_session.client, it->group, request->gs_num_phases == HA_GS_N_PHASE));
}

/* The members whom a program of this interface names by node and instance number; HA_GS_NOT_A_MEMBER where one is none. */
static ha_gs_rc_t find_members(const provider *it, const ha_gs_expel_list_t *list, hags_provider *found) {
    for (int at = 0; at < list->gs_count; at++) {
        int wanted = list->gs_providers[at].gs_provider_id;
        size_t place = 0;
        while (place < it->count && provider_of(it->list[place]).gs_provider_id != wanted) place++;
        if (place == it->count) return HA_GS_NOT_A_MEMBER;
        found[at] = it->list[place];
    }
    return HA_GS_OK;
}

ha_gs_rc_t ha_gs_expel(ha_gs_token_t provider_token, const ha_gs_proposal_info_t *proposal_info) {
    ha_gs_rc_t code;
    provider *it = asking(provider_token, proposal_info, &code);
    hags_provider found[MOST_MEMBERS];
    if (!it) return code;
    const ha_gs_expel_request_t *request = &proposal_info->gs_expel_request;
    const ha_gs_expel_list_t *list = &request->gs_expel_list;
    if (request->gs_deactivate_phase) return HA_GS_NOT_SUPPORTED;
    if (list->gs_count < 1 || list->gs_count > MOST_MEMBERS || !list->gs_providers) return HA_GS_BAD_PARAMETER;
    if ((code = find_members(it, list, found)) != HA_GS_OK) return code;
    return asked(it, HA_GS_EXPEL,
                 hags_expel(ha_gs_session.client, it->group, request->gs_num_phases == HA_GS_N_PHASE,
                            (hags_members){(size_t)list->gs_count, found}));
}

ha_gs_rc_t ha_gs_vote(ha_gs_token_t provider_token, ha_gs_vote_value_t vote_value,
                      const ha_gs_state_value_t *proposed_state_value, const ha_gs_provider_message_t *provider_message,
                      ha_gs_vote_value_t default_vote_value) {
    static const char votes[] = {[HA_GS_VOTE_APPROVE] = 'A', [HA_GS_VOTE_CONTINUE] = 'C', [HA_GS_VOTE_REJECT] = 'R'};
    ha_gs_rc_t code;
    provider *it = provider_of_token(provider_token, &code);
    if (!it) return code;
    if (vote_value <= HA_GS_NULL_VOTE || vote_value > HA_GS_VOTE_REJECT) return HA_GS_BAD_PARAMETER;
    bool has_message = provider_message && provider_message->gs_length;
    if (has_message || default_vote_value != HA_GS_NULL_VOTE) return HA_GS_NOT_SUPPORTED;
    hags_bytes value = {0, NULL};
    if (proposed_state_value) {
        if (!is_value(proposed_state_value->gs_length, proposed_state_value->gs_state)) return HA_GS_BAD_PARAMETER;
        value = bytes_of(proposed_state_value->gs_length, proposed_state_value->gs_state);
    }
    return ha_gs_code_of(hags_vote(ha_gs_session.client, it->group, votes[vote_value], value));
}

ha_gs_rc_t ha_gs_goodbye(ha_gs_token_t provider_token) {
    ha_gs_rc_t code;
    provider *it = provider_of_token(provider_token, &code);
    if (!it) return code;
    code = ha_gs_code_of(hags_leave(ha_gs_session.client, it->group, false));
    if (code != HA_GS_OK) return code;
    it->is_gone = true;
    if (!ha_gs_session.is_giving) ha_gs_drop_gone();
    return HA_GS_OK;
}

/* ---- Subscribing ---- */

static bool is_subscribed(const char *group) {
    for (subscriber *it = ha_gs_session.subscribers; it; it = it->next)
        if (!it->is_gone && !strcmp(it->group, group)) return true;
    return false;
}

ha_gs_rc_t ha_gs_subscribe(ha_gs_token_t *subscriber_token, const ha_gs_proposal_info_t *proposal_info) {
    if (!ha_gs_session.client) return HA_GS_NO_INIT;
    if (!subscriber_token || !proposal_info) return HA_GS_BAD_PARAMETER;
    const ha_gs_subscribe_request_t *request = &proposal_info->gs_subscribe_request;
    ha_gs_rc_t code = check_name(request->gs_subscription_group);
    if (code != HA_GS_OK) return code;
    bool is_good = request->gs_subscription_callback && request->gs_subscription_control >= HA_GS_SUBSCRIBE_STATE &&
                   request->gs_subscription_control <= HA_GS_SUBSCRIBE_STATE_AND_MEMBERSHIP;
    if (!is_good) return HA_GS_BAD_PARAMETER;
    subscriber *it = calloc(1, sizeof *it);
    if (!it) return HA_GS_NO_MEMORY;
    /* the daemon knows one subscription of each group and client, which all of this process share */
    if (!is_subscribed(request->gs_subscription_group))
        code = ha_gs_code_of(hags_subscribe(ha_gs_session.client, request->gs_subscription_group));
    if (code != HA_GS_OK) {
        free(it);
        return code;
    }
    it->token = *subscriber_token = ++ha_gs_session.last_token;
    strcpy(it->group, request->gs_subscription_group);
    it->control = request->gs_subscription_control;
    it->callback = request->gs_subscription_callback;
    /* without it the first notification is that of the first change */
    (void)!hags_look(ha_gs_session.client, it->group, &it->first);
    it->next = ha_gs_session.subscribers;
    ha_gs_session.subscribers = it;
    return HA_GS_OK;
}

ha_gs_rc_t ha_gs_unsubscribe(ha_gs_token_t subscriber_token) {
    if (!ha_gs_session.client) return HA_GS_NO_INIT;
    subscriber *it = ha_gs_session.subscribers;
    while (it && (it->token != subscriber_token || it->is_gone)) it = it->next;
    if (!it) return HA_GS_BAD_MEMBER_TOKEN;
    it->is_gone = true;
    ha_gs_rc_t code = HA_GS_OK;
    if (!is_subscribed(it->group)) code = ha_gs_code_of(hags_unsubscribe(ha_gs_session.client, it->group));
    if (code != HA_GS_OK) it->is_gone = false;
    if (!ha_gs_session.is_giving) ha_gs_drop_gone();
    return code;
}
