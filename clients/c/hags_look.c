/* How a group stands now, by the questions that `hags status` asks. A daemon answers them whoever asks, in no session. */
#include "hags_internal.h"

#include <stdio.h>
#include <stdlib.h>
#include <string.h>
#include <sys/random.h>

enum { VIEW = 2, GROUPS = 3 /* what is asked: hagsns, hagsgr */, ASK_AGAIN = 100000 /* microseconds */ };

/* A packet of kind 22 for the client's node, on the network on which it goes. */
static void send_question(hags *client, int what) {
    uint8_t query[21], *to = query;
    to = put_number(to, 0x52470116, 4);
    to = put_number(to, client->place[client->at].network, 1);
    to = put_number(to, 0, 1);
    to = put_number(to, (uint64_t)client->node, 1);
    to = put_number(to, 0, 5);
    to = put_number(to, 5, 4);
    to = put_number(to, client->question, 4);
    put_number(to, (uint64_t)what, 1);
    hags_send(client, query, sizeof query);
}

/* Asks until the reply comes, which the caller frees, or this moment is over. */
static hags_result ask(hags *client, int what, int64_t end, char **reply) {
    int64_t again = 0;
    hags_result result = HAGS_OK;
    do {
        if (getrandom(&client->question, sizeof client->question, 0) != sizeof client->question) return HAGS_FAULT;
    } while (!client->question);
    while (result == HAGS_OK && !client->reply) {
        if (now() >= again) {
            send_question(client, what);
            again = now() + ASK_AGAIN;
        }
        result = hags_dispatch(client);
        if (result == HAGS_OK && !client->is_active) result = HAGS_BAD;
        if (result != HAGS_OK || client->reply) break;
        if (!hags_wait_until(client, again < end ? again : end) && now() >= end) result = HAGS_LATE;
    }
    free(*reply);
    *reply = client->reply;
    client->question = 0;
    client->reply = NULL;
    return result;
}

/* What stands behind `name` in a word; nothing where that is not its name. */
static char *behind(char *word, const char *name) {
    size_t length = strlen(name);
    return word + (strncmp(word, name, length) ? strlen(word) : length);
}

/* The event that would be noted with these three words, and NULL where memory has run out. */
static hags_event *event_of(const hags *client, const char *view, const char *group, char *const *said) {
    const char *members = behind(said[1], "members="), *value = behind(said[2], "value=");
    char place[16] = "-", *line = malloc(64 + strlen(view) + strlen(group) + strlen(members) + strlen(value));
    uint32_t length;
    if (!line) return NULL;
    if (hags_number(behind(said[0], "len="), UINT32_MAX, &length) && length)
        snprintf(place, sizeof place, "%u", (unsigned)(length - 1));
    int size = sprintf(line, "noted %d.%s %s %s %s", client->node, client->name, view, group, place);
    size += sprintf(line + size, " %s =%s", members, value);
    hags_event *event = hags_event_of(line, (size_t)size);
    free(line);
    return event;
}

/* The replies about the view and, unless hosts are asked for, about the groups in it: so the view is asked for again, until it
 * was the same before and after. */
static hags_result ask_all(hags *client, bool are_hosts, char **view, char **groups) {
    int64_t end = now() + (int64_t)client->patience * 1000;
    char *before = NULL;
    hags_result result = ask(client, VIEW, end, view);
    while (result == HAGS_OK && !are_hosts) {
        free(before);
        before = *view;
        *view = NULL;
        result = ask(client, GROUPS, end, groups);
        if (result == HAGS_OK) result = ask(client, VIEW, end, view);
        if (result == HAGS_OK && !strcmp(before, *view)) break;
    }
    free(before);
    return result;
}

hags_result hags_look(hags *client, const char *group, hags_event **event) {
    char *view = NULL, *groups = NULL, *host[5], *word[6], *text;
    bool are_hosts = !strcmp(group, HAGS_HOSTS), is_there = false;
    *event = NULL;
    if (!client->is_open) return client->end != HAGS_OK ? client->end : HAGS_BAD;
    hags_result result = ask_all(client, are_hosts, &view, &groups);
    bool has_view = result == HAGS_OK && (text = view) && hags_next_line(&text, host, 5) == 5;
    if (has_view && are_hosts) {
        char *said[] = {host[2], host[3], host[4]}; /* of which only the members are any that an event has */
        is_there = true;
        *event = event_of(client, host[1], group, said);
    }
    text = groups;
    while (has_view && text && !is_there && hags_next_line(&text, word, 6) >= 6) {
        is_there = !strcmp(word[1], group);
        if (is_there) *event = event_of(client, host[1], group, word + 3);
    }
    free(view);
    free(groups);
    return is_there && !*event ? HAGS_NO_MEMORY : result;
}
