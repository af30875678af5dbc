/* Calls, spelled as the lines that the daemon takes. */
#include "hags_internal.h"

#include <stdio.h>
#include <string.h>

enum { MOST_CALL_GROUP = 64 /* bytes of a group's name in a call; the daemon refuses those over 32 */ };

size_t hags_spell(hags_bytes text, char *out, size_t room) {
    size_t length = 0;
    bool is_special = !text.length || (text.length == 1 && text.bytes[0] == '~');
    const char *special = text.length ? "%7E" : "~";
    char spelled[4];
    for (size_t at = 0; at < (is_special ? 1 : text.length); at++) {
        unsigned char byte = is_special ? 0 : (unsigned char)text.bytes[at];
        bool is_plain = byte > ' ' && byte <= '~' && byte != '%';
        if (is_special) snprintf(spelled, sizeof spelled, "%s", special);
        else if (is_plain) snprintf(spelled, sizeof spelled, "%c", byte);
        else snprintf(spelled, sizeof spelled, "%%%02X", byte);
        for (const char *it = spelled; *it; it++, length++)
            if (length + 1 < room) out[length] = *it;
    }
    if (room) out[length < room ? length : room - 1] = 0;
    return length;
}

/* The line of a call as it is made. `length` over HAGS_MOST_LINE is too long, whatever stands there. */
typedef struct {
    char text[HAGS_MOST_LINE + 2];
    size_t length;
} spelling;

static void add(spelling *line, const char *word) {
    size_t size = strlen(word);
    bool has_room = line->length + size <= HAGS_MOST_LINE;
    if (has_room) memcpy(line->text + line->length, word, size + 1);
    line->length = has_room ? line->length + size : HAGS_MOST_LINE + 1;
}

static void add_number(spelling *line, const char *front, unsigned number) {
    char word[16];
    snprintf(word, sizeof word, "%u", number);
    add(line, front);
    add(line, word);
}

static void add_text(spelling *line, hags_bytes text) {
    char spelled[HAGS_MOST_LINE + 2];
    hags_spell(text, spelled, sizeof spelled);
    add(line, spelled);
}

static void add_attributes(spelling *line, const hags_attributes *attributes) {
    static const char *const batches[] = {"", " batch=joins", " batch=failures", " batch=both"};
    if (!attributes) return;
    if (attributes->by_vote) add(line, " phases=n");
    add(line, batches[attributes->batch]);
    if (attributes->rejects) add(line, " default=reject");
    if (attributes->limit) add_number(line, " limit=", attributes->limit);
    if (attributes->source) {
        add(line, " source=");
        add(line, attributes->source);
    }
    if (attributes->source_by_vote) add(line, " sphases=n");
    if (attributes->source_limit) add_number(line, " slimit=", attributes->source_limit);
}

static bool is_group(const char *name) {
    size_t length = strlen(name);
    return length && length <= MOST_CALL_GROUP && strspn(name, HAGS_LETTERS) == length;
}

/* Can they be spelled? NULL can. */
static bool are_attributes(const hags_attributes *it) {
    return !it || ((unsigned)it->batch <= HAGS_BOTH && (!it->source || is_group(it->source)));
}

/* Begins the line of a call: its word, the client's name and the group. */
static bool begin(hags *client, spelling *line, const char *word, const char *group) {
    line->length = 0;
    if (!is_group(group)) return false;
    add(line, word);
    add(line, " ");
    add(line, client->name);
    add(line, " ");
    add(line, group);
    return true;
}

static hags_result finish(hags *client, const spelling *line) {
    return line->length > HAGS_MOST_LINE ? HAGS_BAD : hags_call(client, line->text);
}

hags_result hags_join(hags *client, const char *group, unsigned instance, const hags_attributes *attributes) {
    spelling line;
    bool is_good = instance && instance <= UINT16_MAX && are_attributes(attributes);
    if (!is_good || !begin(client, &line, "join", group)) return HAGS_BAD;
    add_number(&line, " ", instance);
    add_attributes(&line, attributes);
    return finish(client, &line);
}

static const char *phases(bool by_vote) {
    return by_vote ? " n" : " 1";
}

hags_result hags_leave(hags *client, const char *group, bool by_vote) {
    spelling line;
    if (!begin(client, &line, "leave", group)) return HAGS_BAD;
    add(&line, phases(by_vote));
    return finish(client, &line);
}

hags_result hags_expel(hags *client, const char *group, bool by_vote, hags_members members) {
    spelling line;
    if (!members.count || !begin(client, &line, "expel", group)) return HAGS_BAD;
    add(&line, phases(by_vote));
    for (size_t at = 0; at < members.count; at++) {
        add_number(&line, " ", members.list[at].node);
        add_number(&line, ".", members.list[at].incarnation);
        add_number(&line, ".", members.list[at].instance);
        add_number(&line, ".", members.list[at].join);
    }
    return finish(client, &line);
}

/* A call with a text, which has no more than 1,024 bytes at any daemon. */
static hags_result call_text(hags *client, const char *word, const char *group, bool by_vote, hags_bytes text) {
    spelling line;
    if (!begin(client, &line, word, group)) return HAGS_BAD;
    add(&line, phases(by_vote));
    add(&line, " ");
    add_text(&line, text);
    return finish(client, &line);
}

hags_result hags_state(hags *client, const char *group, bool by_vote, hags_bytes value) {
    return call_text(client, "state", group, by_vote, value);
}

hags_result hags_message(hags *client, const char *group, bool by_vote, hags_bytes text) {
    return call_text(client, "message", group, by_vote, text);
}

hags_result hags_change(hags *client, const char *group, bool by_vote, const hags_attributes *attributes) {
    spelling line;
    if (!are_attributes(attributes) || !begin(client, &line, "attrs", group)) return HAGS_BAD;
    add(&line, phases(by_vote));
    add_attributes(&line, attributes);
    return finish(client, &line);
}

hags_result hags_vote(hags *client, const char *group, char vote, hags_bytes value) {
    spelling line;
    char word[] = {' ', vote, 0};
    if (!vote || !strchr("ACR", vote) || !begin(client, &line, "vote", group)) return HAGS_BAD;
    add(&line, word);
    if (value.bytes) {
        add(&line, "=");
        add_text(&line, value);
    }
    return finish(client, &line);
}

static hags_result call_group(hags *client, const char *word, const char *group) {
    spelling line;
    return begin(client, &line, word, group) ? finish(client, &line) : HAGS_BAD;
}

hags_result hags_subscribe(hags *client, const char *group) {
    return call_group(client, "subscribe", group);
}

hags_result hags_unsubscribe(hags *client, const char *group) {
    return call_group(client, "unsubscribe", group);
}
