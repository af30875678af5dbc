/* Programs written against the Group Services API use a hags daemon by this header: the names of that interface, over the
 * client of hags.h. Programs are compiled anew; nothing here is compatible as a binary. What is whole, what is there in
 * part and what is not stands in docs/clients/gsapi.md.
 *
 * Where the daemon is, the environment says: HAGS_SETTINGS names the file of its settings (/etc/hags/settings where it is
 * not set), HAGS_NODE its node, and HAGS_CLIENT the client's name there, up to 16 letters, digits, `_`, `-` and `.` (one by
 * chance where it is not set).
 *
 * One process has one session, which one thread at a time uses. Notifications come by ha_gs_dispatch alone; what they point
 * to lasts as long as the callback. */
#ifndef HA_GS_H
#define HA_GS_H

#ifdef __cplusplus
extern "C" {
#endif

#define HA_GS_RELEASE 1 /* for gs_version and gs_client_version of group attributes */
#define HA_GS_MAX_GROUP_NAME_LENGTH 32
#define HA_GS_MAX_STATE_VALUE_LENGTH 256
#define HA_GS_MAX_MESSAGE_LENGTH 1024
#define HA_GS_HOST_MEMBERSHIP_GROUP "HostMembership"

typedef int ha_gs_descriptor_t;
typedef int ha_gs_token_t;
typedef unsigned short ha_gs_time_limit_t; /* seconds, 0 for none */

/* What a call answers, or what a delayed error says. */
typedef enum {
    HA_GS_OK,
    HA_GS_NOT_OK, /* the daemon has a reason that has no name here */
    HA_GS_EXISTS,
    HA_GS_NO_INIT,
    HA_GS_NAME_TOO_LONG,
    HA_GS_NO_MEMORY,
    HA_GS_NOT_A_MEMBER,
    HA_GS_BAD_CLIENT_TOKEN,
    HA_GS_BAD_MEMBER_TOKEN,
    HA_GS_BAD_PARAMETER,
    HA_GS_UNKNOWN_GROUP,
    HA_GS_INVALID_GROUP,
    HA_GS_NO_SOURCE_GROUP_PROVIDER,
    HA_GS_BAD_GROUP_ATTRIBUTES,
    HA_GS_WRONG_OLD_STATE, /* never comes */
    HA_GS_DUPLICATE_INSTANCE_NUMBER,
    HA_GS_COLLIDE,
    HA_GS_SOCK_CREATE_FAILED,
    HA_GS_SOCK_INIT_FAILED,
    HA_GS_CONNECT_FAILED,
    HA_GS_VOTE_NOT_EXPECTED,
    HA_GS_NOT_SUPPORTED,
    HA_GS_INVALID_SOURCE_GROUP,
    HA_GS_BACKLEVEL_PROVIDERS, /* never comes */
    HA_GS_UNKNOWN_PROVIDER
} ha_gs_rc_t;

/* ---- Members and values ---- */

/* A member is known by its instance number and its node. Of the host membership the instance number is 0. */
typedef union {
    struct {
        short gs_instance_number_of;
        short gs_node_number_of;
    } gs_provider_parts;
    int gs_provider_id;
} ha_gs_provider_t;
#define gs_instance_number gs_provider_parts.gs_instance_number_of
#define gs_node_number gs_provider_parts.gs_node_number_of

typedef struct {
    int gs_count;
    ha_gs_provider_t *gs_providers;
} ha_gs_membership_t;

typedef ha_gs_membership_t ha_gs_expel_list_t;

typedef struct {
    int gs_length;
    char *gs_state;
} ha_gs_state_value_t;

typedef struct {
    int gs_length;
    char *gs_message;
} ha_gs_provider_message_t;

/* ---- What groups are ---- */

typedef enum { HA_GS_1_PHASE = 1, HA_GS_N_PHASE } ha_gs_num_phases_t;

typedef enum { HA_GS_NULL_VOTE, HA_GS_VOTE_APPROVE, HA_GS_VOTE_CONTINUE, HA_GS_VOTE_REJECT } ha_gs_vote_value_t;

typedef enum { HA_GS_NO_BATCHING, HA_GS_BATCH_JOINS, HA_GS_BATCH_FAILURES, HA_GS_BATCH_BOTH } ha_gs_batch_ctrl_t;

/* Only HA_GS_DISSOLVE_MERGE is there. */
typedef enum { HA_GS_DISSOLVE_MERGE, HA_GS_LARGER_MERGE, HA_GS_SMALLER_MERGE, HA_GS_DONTCARE_MERGE } ha_gs_merge_ctrl_t;

typedef struct {
    short gs_version;
    short gs_sizeof_group_attributes;
    short gs_client_version;
    ha_gs_batch_ctrl_t gs_batch_control;
    ha_gs_num_phases_t gs_num_phases;
    ha_gs_num_phases_t gs_source_reflection_num_phases;
    ha_gs_vote_value_t gs_group_default_vote;
    ha_gs_merge_ctrl_t gs_merge_control;
    ha_gs_time_limit_t gs_time_limit;
    ha_gs_time_limit_t gs_source_reflection_time_limit;
    char *gs_group_name;
    char *gs_source_group_name;
} ha_gs_group_attributes_t;

/* ---- Notifications ---- */

typedef enum {
    HA_GS_RESPONSIVENESS_NOTIFICATION,
    HA_GS_QUERY_NOTIFICATION,
    HA_GS_DELAYED_ERROR_NOTIFICATION,
    HA_GS_N_PHASE_NOTIFICATION,
    HA_GS_APPROVED_NOTIFICATION,
    HA_GS_REJECTED_NOTIFICATION,
    HA_GS_ANNOUNCEMENT_NOTIFICATION,
    HA_GS_SUBSCRIPTION_NOTIFICATION,
    HA_GS_MERGE_NOTIFICATION
} ha_gs_notification_type_t;

/* What a protocol does to its group. */
typedef enum {
    HA_GS_RESPONSIVENESS,
    HA_GS_JOIN,
    HA_GS_FAILURE_LEAVE,
    HA_GS_LEAVE,
    HA_GS_EXPEL,
    HA_GS_STATE_VALUE_CHANGE,
    HA_GS_PROVIDER_MESSAGE,
    HA_GS_CAST_OUT,
    HA_GS_SOURCE_STATE_REFLECTION,
    HA_GS_MERGE,
    HA_GS_SUBSCRIPTION,
    HA_GS_GROUP_ATTRIBUTE_CHANGE
} ha_gs_request_t;

/* How a protocol came to its end, or what is announced. One bit each. */
typedef enum {
    HA_GS_NO_SUMMARY = 0,
    HA_GS_EXPLICIT_REJECT = 1 << 0,
    HA_GS_DEFAULT_APPROVE = 1 << 1,
    HA_GS_DEFAULT_REJECT = 1 << 2,
    HA_GS_TIME_LIMIT_EXCEEDED = 1 << 3,
    HA_GS_PROVIDER_FAILED = 1 << 4,
    HA_GS_GROUP_DISSOLVED = 1 << 5,
    HA_GS_GROUP_SERVICES_DIED_HORRIBLY = 1 << 6,
    HA_GS_RESPONSIVENESS_NO_RESPONSE = 1 << 7,
    HA_GS_RESPONSIVENESS_RESPONSE = 1 << 8
} ha_gs_summary_code_t;

/* Which parts of a proposal say something. */
typedef enum {
    HA_GS_NO_CHANGE = 0,
    HA_GS_PROPOSED_MEMBERSHIP = 1 << 0,
    HA_GS_ONGOING_MEMBERSHIP = 1 << 1,
    HA_GS_UPDATED_MEMBERSHIP = 1 << 2,
    HA_GS_PROPOSED_STATE_VALUE = 1 << 3,
    HA_GS_ONGOING_STATE_VALUE = 1 << 4,
    HA_GS_UPDATED_STATE_VALUE = 1 << 5,
    HA_GS_UPDATED_PROVIDER_MESSAGE = 1 << 6,
    HA_GS_REFLECTED_SOURCE_STATE_VALUE = 1 << 7,
    HA_GS_PROPOSED_GROUP_ATTRIBUTES = 1 << 8,
    HA_GS_UPDATED_GROUP_ATTRIBUTES = 1 << 9
} ha_gs_whats_changed_t;

typedef struct {
    ha_gs_num_phases_t gs_num_phases;
    int gs_phase_number;
} ha_gs_phase_info_t;

typedef enum { HA_GS_VOLUNTARY_OR_EXPELLED, HA_GS_PROVIDER_LEAVE_FAILED, HA_GS_HOST_LEAVE_FAILED, HA_GS_CAST_OUT_LEAVE } ha_gs_leave_reason_t;

/* Why each of the changing providers goes, in their order. */
typedef struct {
    int gs_count;
    ha_gs_leave_reason_t *gs_leave_reasons;
} ha_gs_leave_array_t;

/* A part that is not known is NULL, and 0 of gs_proposed_by. */
typedef struct {
    ha_gs_phase_info_t gs_phase_info;
    ha_gs_provider_t gs_proposed_by;
    ha_gs_whats_changed_t gs_whats_changed;
    ha_gs_membership_t *gs_current_providers;  /* of an approval, after it */
    ha_gs_membership_t *gs_changing_providers; /* who comes or goes */
    ha_gs_leave_array_t *gs_leave_info;
    ha_gs_state_value_t *gs_current_state_value;
    ha_gs_state_value_t *gs_proposed_state_value;
    ha_gs_state_value_t *gs_source_state_value;
    ha_gs_provider_message_t *gs_provider_message;
    ha_gs_group_attributes_t *gs_new_group_attributes;
} ha_gs_proposal_t;

typedef struct {
    ha_gs_notification_type_t gs_notification_type;
    ha_gs_token_t gs_provider_token;
    ha_gs_request_t gs_protocol_type;
    ha_gs_summary_code_t gs_summary_code;
    ha_gs_time_limit_t gs_time_limit;
    ha_gs_proposal_t *gs_proposal;
} ha_gs_n_phase_notification_t;

typedef struct {
    ha_gs_notification_type_t gs_notification_type;
    ha_gs_token_t gs_provider_token;
    ha_gs_request_t gs_protocol_type;
    ha_gs_summary_code_t gs_summary_code;
    ha_gs_proposal_t *gs_proposal;
} ha_gs_approved_notification_t;

typedef ha_gs_approved_notification_t ha_gs_rejected_notification_t;

typedef struct {
    ha_gs_notification_type_t gs_notification_type;
    ha_gs_token_t gs_provider_token;
    ha_gs_summary_code_t gs_summary_code;
    ha_gs_membership_t *gs_announcement;
} ha_gs_announcement_notification_t;

/* The group's leader refused what the daemon had taken. Where it was the join, the token is no more. */
typedef struct {
    ha_gs_notification_type_t gs_notification_type;
    ha_gs_token_t gs_token;
    ha_gs_request_t gs_protocol_type;
    ha_gs_rc_t gs_delayed_return_code;
} ha_gs_delayed_error_notification_t;

typedef enum {
    HA_GS_SUBSCRIBE_STATE = 0x01,
    HA_GS_SUBSCRIBE_DELTA_JOINS = 0x02,
    HA_GS_SUBSCRIBE_DELTA_LEAVES = 0x04,
    HA_GS_SUBSCRIBE_DELTAS_ONLY = 0x06,
    HA_GS_SUBSCRIBE_MEMBERSHIP = 0x08,
    HA_GS_SUBSCRIBE_ALL_MEMBERSHIP = 0x0e,
    HA_GS_SUBSCRIBE_STATE_AND_MEMBERSHIP = 0x0f
} ha_gs_subscription_ctrl_t;

typedef enum {
    HA_GS_SUBSCRIPTION_STATE = 0x01,
    HA_GS_SUBSCRIPTION_DELTA_JOIN = 0x02,
    HA_GS_SUBSCRIPTION_DELTA_LEAVE = 0x04,
    HA_GS_SUBSCRIPTION_MEMBERSHIP = 0x08,
    HA_GS_SUBSCRIPTION_DISSOLVED = 0x10,
    HA_GS_SUBSCRIPTION_GS_HAS_DIED = 0x20
} ha_gs_subscription_type_t;

/* What changed is what gs_subscription_type has bits for; the others are NULL. */
typedef struct {
    ha_gs_notification_type_t gs_notification_type;
    ha_gs_token_t gs_subscriber_token;
    ha_gs_subscription_type_t gs_subscription_type;
    ha_gs_state_value_t *gs_state_value;
    ha_gs_membership_t *gs_full_membership;
    ha_gs_membership_t *gs_joining_membership;
    ha_gs_membership_t *gs_leaving_membership;
} ha_gs_subscription_notification_t;

typedef enum { HA_GS_CALLBACK_OK, HA_GS_CALLBACK_NOT_OK } ha_gs_callback_rc_t;

typedef void ha_gs_n_phase_cb_t(const ha_gs_n_phase_notification_t *notification);
typedef void ha_gs_approved_cb_t(const ha_gs_approved_notification_t *notification);
typedef void ha_gs_rejected_cb_t(const ha_gs_rejected_notification_t *notification);
typedef void ha_gs_announcement_cb_t(const ha_gs_announcement_notification_t *notification);
typedef void ha_gs_merge_cb_t(const void *notification);
typedef void ha_gs_delayed_error_cb_t(const ha_gs_delayed_error_notification_t *notification);
typedef void ha_gs_subscription_cb_t(const ha_gs_subscription_notification_t *notification);
typedef ha_gs_callback_rc_t ha_gs_responsiveness_cb_t(const void *notification);
typedef void ha_gs_query_cb_t(const void *notification);

/* ---- Requests ---- */

typedef struct {
    ha_gs_group_attributes_t *gs_group_attributes;
    short gs_provider_instance;
    char *gs_provider_local_name; /* is told to nobody */
    ha_gs_n_phase_cb_t *gs_n_phase_protocol_callback;
    ha_gs_approved_cb_t *gs_protocol_approved_callback;
    ha_gs_rejected_cb_t *gs_protocol_rejected_callback;
    ha_gs_announcement_cb_t *gs_announcement_callback;
    ha_gs_merge_cb_t *gs_merge_callback; /* is never called */
} ha_gs_join_request_t;

/* gs_time_limit of a request is not carried: that of the group counts. */
typedef struct {
    ha_gs_num_phases_t gs_num_phases;
    ha_gs_time_limit_t gs_time_limit;
    ha_gs_state_value_t gs_new_state;
} ha_gs_state_change_request_t;

typedef struct {
    ha_gs_num_phases_t gs_num_phases;
    ha_gs_time_limit_t gs_time_limit;
    ha_gs_provider_message_t gs_message;
} ha_gs_message_request_t;

typedef struct {
    ha_gs_num_phases_t gs_num_phases;
    ha_gs_time_limit_t gs_time_limit;
    unsigned int gs_leave_code; /* is told to nobody */
} ha_gs_leave_request_t;

typedef struct {
    ha_gs_num_phases_t gs_num_phases;
    ha_gs_time_limit_t gs_time_limit;
    ha_gs_expel_list_t gs_expel_list;
    int gs_deactivate_phase; /* 0: no script is run */
    char *gs_deactivate_flag;
} ha_gs_expel_request_t;

typedef struct {
    ha_gs_num_phases_t gs_num_phases;
    ha_gs_time_limit_t gs_time_limit;
    ha_gs_group_attributes_t *gs_group_attributes;
} ha_gs_attribute_change_request_t;

typedef struct {
    ha_gs_subscription_ctrl_t gs_subscription_control;
    char *gs_subscription_group;
    ha_gs_subscription_cb_t *gs_subscription_callback;
} ha_gs_subscribe_request_t;

typedef union {
    ha_gs_join_request_t gs_join_request;
    ha_gs_state_change_request_t gs_state_change_request;
    ha_gs_message_request_t gs_message_request;
    ha_gs_leave_request_t gs_leave_request;
    ha_gs_expel_request_t gs_expel_request;
    ha_gs_attribute_change_request_t gs_attribute_change_request;
    ha_gs_subscribe_request_t gs_subscribe_request;
} ha_gs_proposal_info_t;

typedef enum { HA_GS_SOCKET_NO_SIGNAL, HA_GS_SOCKET_SIGNAL } ha_gs_socket_ctrl_t;

typedef enum { HA_GS_NO_RESPONSIVENESS, HA_GS_PING_RESPONSIVENESS, HA_GS_COUNTER_RESPONSIVENESS } ha_gs_responsiveness_type_t;

typedef struct {
    ha_gs_responsiveness_type_t gs_responsiveness_type;
    unsigned int gs_responsiveness_interval;
    ha_gs_time_limit_t gs_responsiveness_response_time_limit;
    void *gs_counter_location;
    unsigned int gs_counter_length;
} ha_gs_responsiveness_t;

typedef enum { HA_GS_NON_BLOCKING, HA_GS_BLOCKING } ha_gs_dispatch_flag_t;

/* ---- Calls ---- */

/* Begins the session of this process. The descriptor is readable when ha_gs_dispatch has something to do. HA_GS_EXISTS:
 * there is one, or another client has the name. HA_GS_CONNECT_FAILED: no daemon answered within ten seconds, or it takes
 * no more clients. HA_GS_BAD_PARAMETER: the environment says no name, or no node of the settings. HA_GS_NOT_SUPPORTED:
 * signals, or a responsiveness that is not HA_GS_NO_RESPONSIVENESS. */
ha_gs_rc_t ha_gs_init(ha_gs_descriptor_t *descriptor, const ha_gs_socket_ctrl_t socket_control,
                      const ha_gs_responsiveness_t *responsiveness_control, const char *deactivate_script,
                      ha_gs_responsiveness_cb_t *responsiveness_callback,
                      ha_gs_delayed_error_cb_t *delayed_error_callback, ha_gs_query_cb_t *query_callback);

/* Gives the notifications that there are. HA_GS_BLOCKING goes on until the session ends. HA_GS_NO_INIT: there is no
 * session, or it has ended; in the latter case each provider and subscriber has been told. */
ha_gs_rc_t ha_gs_dispatch(const ha_gs_dispatch_flag_t dispatch_flag);

/* Each of the following waits for the daemon's answer. HA_GS_OK: the daemon took it, and a notification or a delayed error
 * follows. HA_GS_CONNECT_FAILED: no answer came within ten seconds; what was asked for may still be done. */
ha_gs_rc_t ha_gs_join(ha_gs_token_t *provider_token, const ha_gs_proposal_info_t *proposal_info);
ha_gs_rc_t ha_gs_vote(ha_gs_token_t provider_token, ha_gs_vote_value_t vote_value,
                      const ha_gs_state_value_t *proposed_state_value, const ha_gs_provider_message_t *provider_message,
                      ha_gs_vote_value_t default_vote_value);
ha_gs_rc_t ha_gs_change_state_value(ha_gs_token_t provider_token, const ha_gs_proposal_info_t *proposal_info);
ha_gs_rc_t ha_gs_send_message(ha_gs_token_t provider_token, const ha_gs_proposal_info_t *proposal_info);
ha_gs_rc_t ha_gs_change_attributes(ha_gs_token_t provider_token, const ha_gs_proposal_info_t *proposal_info);
ha_gs_rc_t ha_gs_leave(ha_gs_token_t provider_token, const ha_gs_proposal_info_t *proposal_info);
ha_gs_rc_t ha_gs_expel(ha_gs_token_t provider_token, const ha_gs_proposal_info_t *proposal_info);
/* Leaves at once, and no notification comes any more. */
ha_gs_rc_t ha_gs_goodbye(ha_gs_token_t provider_token);

ha_gs_rc_t ha_gs_subscribe(ha_gs_token_t *subscriber_token, const ha_gs_proposal_info_t *proposal_info);
ha_gs_rc_t ha_gs_unsubscribe(ha_gs_token_t subscriber_token);

/* Ends the session. The daemon removes all its providers. */
ha_gs_rc_t ha_gs_quit(void);

/* The node of the daemon. HA_GS_NO_INIT where there is no session. */
ha_gs_rc_t ha_gs_get_node_number(int *node_number);

#ifdef __cplusplus
}
#endif
#endif
