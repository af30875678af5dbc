/* A member, as a program of the Group Services interface has one: it waits with select for its descriptor and for commands,
 * approves whatever is proposed, and writes each notification as a line, those of proposals as two: `proposed` or `done`
 * with the kind, who asks, who comes or goes and why, the proposed value and the message, `-` for what is not known.
 *
 *     subscribe, join, state TEXT, message TEXT, expel NODE, leave, quit
 *
 * Changes are by vote. Each command is answered by `did CODE`. */
#define _POSIX_C_SOURCE 200809L
#include "../../clients/c/ha_gs.h"

#include <stdbool.h>
#include <stdio.h>
#include <stdlib.h>
#include <string.h>
#include <sys/select.h>
#include <unistd.h>

static ha_gs_token_t provider, subscriber;
static int node;

static void print_members(const ha_gs_membership_t *list) {
    if (!list || !list->gs_count) printf(" -");
    for (int at = 0; list && at < list->gs_count; at++)
        printf("%c%d.%d", at ? ',' : ' ', list->gs_providers[at].gs_node_number, list->gs_providers[at].gs_instance_number);
}

static void print_bytes(bool is_there, int length, const char *bytes) {
    if (is_there) printf(" =%.*s", length, bytes);
    else printf(" -");
}

static void print_proposal(const char *word, ha_gs_request_t kind, const ha_gs_proposal_t *it) {
    const ha_gs_state_value_t *value = it->gs_proposed_state_value;
    const ha_gs_provider_message_t *message = it->gs_provider_message;
    printf("%s %d %d.%d", word, kind, it->gs_proposed_by.gs_node_number, it->gs_proposed_by.gs_instance_number);
    print_members(it->gs_changing_providers);
    printf(it->gs_leave_info ? " " : " -");
    for (int at = 0; it->gs_leave_info && at < it->gs_leave_info->gs_count; at++)
        printf("%s%d", at ? "," : "", it->gs_leave_info->gs_leave_reasons[at]);
    print_bytes(value, value ? value->gs_length : 0, value ? value->gs_state : NULL);
    print_bytes(message, message ? message->gs_length : 0, message ? message->gs_message : NULL);
    printf("\n");
}

static void on_phase(const ha_gs_n_phase_notification_t *it) {
    print_proposal("proposed", it->gs_protocol_type, it->gs_proposal);
    printf("phase %d %d\n", it->gs_protocol_type, it->gs_proposal->gs_phase_info.gs_phase_number);
    ha_gs_rc_t code = ha_gs_vote(it->gs_provider_token, HA_GS_VOTE_APPROVE, NULL, NULL, HA_GS_NULL_VOTE);
    if (code != HA_GS_OK) printf("vote %d\n", code);
}

static void on_approved(const ha_gs_approved_notification_t *it) {
    const ha_gs_state_value_t *value = it->gs_proposal->gs_current_state_value;
    printf("approved %d", it->gs_protocol_type);
    print_members(it->gs_proposal->gs_current_providers);
    printf(" =%.*s\n", value ? value->gs_length : 0, value ? value->gs_state : "");
    print_proposal("done", it->gs_protocol_type, it->gs_proposal);
}

static void on_rejected(const ha_gs_rejected_notification_t *it) {
    printf("rejected %d\n", it->gs_protocol_type);
}

static void on_announcement(const ha_gs_announcement_notification_t *it) {
    printf("announced %d\n", it->gs_summary_code);
}

static void on_error(const ha_gs_delayed_error_notification_t *it) {
    printf("error %d %d\n", it->gs_protocol_type, it->gs_delayed_return_code);
}

static void on_subscription(const ha_gs_subscription_notification_t *it) {
    printf("noted %d", it->gs_subscription_type);
    print_members(it->gs_full_membership);
    printf("\n");
}

static ha_gs_rc_t join(void) {
    ha_gs_group_attributes_t attributes = {
        HA_GS_RELEASE, sizeof attributes, HA_GS_RELEASE, HA_GS_NO_BATCHING, HA_GS_N_PHASE, HA_GS_1_PHASE,
        HA_GS_VOTE_APPROVE, HA_GS_DISSOLVE_MERGE, 60, 0, "db", NULL};
    ha_gs_proposal_info_t info = {.gs_join_request = {&attributes, (short)(10 + node), "member", on_phase, on_approved,
                                                      on_rejected, on_announcement, NULL}};
    return ha_gs_join(&provider, &info);
}

static ha_gs_rc_t carry_out(const char *command, char *text) {
    ha_gs_proposal_info_t info;
    ha_gs_provider_t other;
    if (!strcmp(command, "join")) return join();
    memset(&info, 0, sizeof info);
    if (!strcmp(command, "subscribe")) {
        info.gs_subscribe_request = (ha_gs_subscribe_request_t){HA_GS_SUBSCRIBE_MEMBERSHIP, HA_GS_HOST_MEMBERSHIP_GROUP, on_subscription};
        return ha_gs_subscribe(&subscriber, &info);
    }
    if (!strcmp(command, "state")) {
        info.gs_state_change_request = (ha_gs_state_change_request_t){HA_GS_N_PHASE, 0, {(int)strlen(text), text}};
        return ha_gs_change_state_value(provider, &info);
    }
    if (!strcmp(command, "message")) {
        info.gs_message_request = (ha_gs_message_request_t){HA_GS_N_PHASE, 0, {(int)strlen(text), text}};
        return ha_gs_send_message(provider, &info);
    }
    if (!strcmp(command, "expel")) {
        memset(&other, 0, sizeof other);
        other.gs_node_number = (short)atoi(text);
        other.gs_instance_number = (short)(10 + atoi(text));
        info.gs_expel_request = (ha_gs_expel_request_t){HA_GS_N_PHASE, 0, {1, &other}, 0, NULL};
        return ha_gs_expel(provider, &info);
    }
    info.gs_leave_request = (ha_gs_leave_request_t){HA_GS_N_PHASE, 0, 0};
    return strcmp(command, "leave") ? HA_GS_BAD_PARAMETER : ha_gs_leave(provider, &info);
}

int main(void) {
    ha_gs_descriptor_t descriptor;
    char line[1200];
    setvbuf(stdout, NULL, _IOLBF, 0);
    setvbuf(stdin, NULL, _IONBF, 0);
    ha_gs_rc_t code = ha_gs_init(&descriptor, HA_GS_SOCKET_NO_SIGNAL, NULL, NULL, NULL, on_error, NULL);
    if (code != HA_GS_OK || ha_gs_get_node_number(&node) != HA_GS_OK) {
        fprintf(stderr, "ha_gs_init answered %d\n", code);
        return 1;
    }
    for (;;) {
        fd_set ready;
        FD_ZERO(&ready);
        FD_SET(descriptor, &ready);
        FD_SET(STDIN_FILENO, &ready);
        if (select(descriptor + 1, &ready, NULL, NULL, NULL) < 0) return 1;
        if (FD_ISSET(descriptor, &ready) && ha_gs_dispatch(HA_GS_NON_BLOCKING) != HA_GS_OK) return 1;
        if (!FD_ISSET(STDIN_FILENO, &ready)) continue;
        if (!fgets(line, sizeof line, stdin)) return 1;
        line[strcspn(line, "\n")] = 0;
        if (!strcmp(line, "quit")) return ha_gs_quit() != HA_GS_OK;
        char *text = strchr(line, ' ');
        if (text) *text++ = 0;
        printf("did %d\n", carry_out(line, text ? text : ""));
    }
}
