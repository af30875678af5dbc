/* The names of the Group Services API over a client of hags.h: the session that a process has, and codes. */
#include "ha_gs_internal.h"

#include <stdio.h>
#include <stdlib.h>
#include <sys/random.h>

enum { MOST_SETTINGS = 16777216 };

session ha_gs_session;

/* ---- Codes ---- */

ha_gs_rc_t ha_gs_code_named(const char *name) {
    static const struct { const char *name; ha_gs_rc_t code; } codes[] = {
        {"NO_INIT", HA_GS_NO_INIT}, {"EXISTS", HA_GS_EXISTS}, {"NAME_TOO_LONG", HA_GS_NAME_TOO_LONG},
        {"BAD_PARAMETER", HA_GS_BAD_PARAMETER}, {"BAD_CLIENT_TOKEN", HA_GS_BAD_CLIENT_TOKEN},
        {"BAD_MEMBER_TOKEN", HA_GS_BAD_MEMBER_TOKEN}, {"NOT_A_MEMBER", HA_GS_NOT_A_MEMBER},
        {"UNKNOWN_GROUP", HA_GS_UNKNOWN_GROUP}, {"BAD_GROUP_ATTRIBUTES", HA_GS_BAD_GROUP_ATTRIBUTES},
        {"DUPLICATE_INSTANCE_NUMBER", HA_GS_DUPLICATE_INSTANCE_NUMBER}, {"VOTE_NOT_EXPECTED", HA_GS_VOTE_NOT_EXPECTED},
        {"COLLIDE", HA_GS_COLLIDE}, {"NO_SOURCE_GROUP_PROVIDER", HA_GS_NO_SOURCE_GROUP_PROVIDER},
        {"NO_MEMORY", HA_GS_NO_MEMORY},
    };
    size_t length = strcspn(name, " ");
    for (size_t at = 0; at < sizeof codes / sizeof *codes; at++)
        if (strlen(codes[at].name) == length && !strncmp(codes[at].name, name, length)) return codes[at].code;
    return HA_GS_NOT_OK;
}

ha_gs_rc_t ha_gs_code_of(hags_result result) {
    switch (result) {
        case HAGS_OK: return HA_GS_OK;
        case HAGS_REFUSED: return ha_gs_code_named(hags_refusal(ha_gs_session.client));
        case HAGS_LATE:
        case HAGS_BUSY:
        case HAGS_FULL: return HA_GS_CONNECT_FAILED;
        case HAGS_LOST: return HA_GS_NO_INIT;
        case HAGS_BAD: return HA_GS_BAD_PARAMETER;
        case HAGS_NO_MEMORY: return HA_GS_NO_MEMORY;
        case HAGS_FAULT: break;
    }
    return HA_GS_NOT_OK;
}

/* ---- The session ---- */

void ha_gs_drop_gone(void) {
    for (provider **at = &ha_gs_session.providers; *at;) {
        provider *it = *at;
        if (it->is_gone) *at = it->next, free(it);
        else at = &it->next;
    }
    for (subscriber **at = &ha_gs_session.subscribers; *at;) {
        subscriber *it = *at;
        if (it->is_gone) *at = it->next, free(it->first), free(it);
        else at = &it->next;
    }
}

static void forget_all(void) {
    for (provider *it = ha_gs_session.providers; it; it = it->next) it->is_gone = true;
    for (subscriber *it = ha_gs_session.subscribers; it; it = it->next) it->is_gone = true;
    ha_gs_drop_gone();
    free(ha_gs_session.put);
    hags_delete(ha_gs_session.client);
    ha_gs_token_t last_token = ha_gs_session.last_token;
    memset(&ha_gs_session, 0, sizeof ha_gs_session);
    ha_gs_session.last_token = last_token; /* a token is never given twice */
}

ha_gs_rc_t ha_gs_dispatch(const ha_gs_dispatch_flag_t dispatch_flag) {
    if (!ha_gs_session.client) return HA_GS_NO_INIT;
    if (ha_gs_session.is_giving) return HA_GS_NOT_OK; /* from a callback */
    bool is_blocking = dispatch_flag == HA_GS_BLOCKING;
    hags_result result = HAGS_OK;
    ha_gs_session.is_giving = true;
    ha_gs_give_events(); /* what is there already */
    while (!ha_gs_session.has_quit && result == HAGS_OK) {
        result = is_blocking ? hags_wait(ha_gs_session.client, -1) : hags_dispatch(ha_gs_session.client);
        ha_gs_give_events();
        if (result == HAGS_LOST || result == HAGS_FULL) ha_gs_give_death();
        if (!is_blocking) break;
    }
    ha_gs_session.is_giving = false;
    ha_gs_drop_gone();
    bool has_ended = result == HAGS_LOST || result == HAGS_FULL || ha_gs_session.has_quit;
    if (has_ended) forget_all();
    return has_ended ? HA_GS_NO_INIT : ha_gs_code_of(result);
}

/* The text of the settings, which the caller frees; NULL where it cannot be read. */
static char *read_settings(void) {
    const char *name = getenv("HAGS_SETTINGS");
    FILE *file = fopen(name && *name ? name : "/etc/hags/settings", "r");
    char *all = NULL;
    size_t length = 0, room = 0;
    if (!file) return NULL;
    for (size_t read = 1; read && length < MOST_SETTINGS; length += read) {
        if (room < length + 4096) {
            char *more = realloc(all, room = 2 * length + 4097);
            if (!more) break;
            all = more;
        }
        read = fread(all + length, 1, 4096, file);
    }
    if (all) all[length] = 0;
    fclose(file);
    return all;
}

static hags_result open_session(void) {
    const char *name = getenv("HAGS_CLIENT");
    char chosen[HAGS_MOST_NAME + 1];
    unsigned number = 0;
    if (name && *name) return hags_open(ha_gs_session.client, name);
    if (getrandom(&number, sizeof number, 0) < 0) return HAGS_FAULT;
    snprintf(chosen, sizeof chosen, "gs-%08x", number);
    return hags_open(ha_gs_session.client, chosen);
}

ha_gs_rc_t ha_gs_init(ha_gs_descriptor_t *descriptor, const ha_gs_socket_ctrl_t socket_control,
                      const ha_gs_responsiveness_t *responsiveness_control, const char *deactivate_script,
                      ha_gs_responsiveness_cb_t *responsiveness_callback,
                      ha_gs_delayed_error_cb_t *delayed_error_callback, ha_gs_query_cb_t *query_callback) {
    (void)deactivate_script, (void)responsiveness_callback, (void)query_callback;
    if (ha_gs_session.client) return HA_GS_EXISTS;
    if (!descriptor) return HA_GS_BAD_PARAMETER;
    bool is_responsive = responsiveness_control && responsiveness_control->gs_responsiveness_type != HA_GS_NO_RESPONSIVENESS;
    if (socket_control != HA_GS_SOCKET_NO_SIGNAL || is_responsive) return HA_GS_NOT_SUPPORTED;
    const char *node = getenv("HAGS_NODE");
    char *settings = read_settings();
    ha_gs_session.node = node ? atoi(node) : 0;
    ha_gs_session.client = settings ? hags_new(settings, ha_gs_session.node) : NULL;
    free(settings);
    if (!ha_gs_session.client) return HA_GS_BAD_PARAMETER;
    ha_gs_rc_t code = ha_gs_code_of(open_session());
    if (code != HA_GS_OK) {
        forget_all();
        return code;
    }
    ha_gs_session.delayed_error = delayed_error_callback;
    *descriptor = hags_fd(ha_gs_session.client);
    return HA_GS_OK;
}

ha_gs_rc_t ha_gs_quit(void) {
    if (!ha_gs_session.client || ha_gs_session.has_quit) return HA_GS_NO_INIT;
    ha_gs_rc_t code = ha_gs_code_of(hags_close(ha_gs_session.client));
    if (ha_gs_session.is_giving) ha_gs_session.has_quit = true;
    else forget_all();
    return code;
}

ha_gs_rc_t ha_gs_get_node_number(int *node_number) {
    if (!ha_gs_session.client) return HA_GS_NO_INIT;
    if (!node_number) return HA_GS_BAD_PARAMETER;
    *node_number = ha_gs_session.node;
    return HA_GS_OK;
}
