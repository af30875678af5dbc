/* The client's end of a session, as docs/remote-sessions.md has it: Ups that go out again and again, and Downs that come
 * back in pieces; and the replies to questions, which come on the same way. */
#include "hags_internal.h"

#include <stdlib.h>
#include <string.h>

enum {
    MOST_MESSAGE = UP_HEAD + HAGS_MOST_LINE,
    REPLY_HEAD = 20,         /* the head of a packet, and the number of the question */
    OTHER_NETWORK_AFTER = 8, /* Ups without an answer */
    TAKEN = 1, FULL = 3      /* answers of a Down */
};

/* A client's message is one piece of sender 0 in incarnation 0. One that the system does not take is lost, as any datagram
 * may be, and goes again. */
void hags_send(hags *client, const uint8_t *bytes, size_t length) {
    uint8_t datagram[NETWORK_BYTE + PIECE_HEAD + MOST_MESSAGE], *to = datagram;
    to = put_number(to, client->place[client->at].network, 1);
    to = put_number(to, 0x52500000, 4);
    to = put_number(to, 0, 4);
    to = put_number(to, ++client->sent, 8);
    to = put_number(to, 0, 4);
    to = put_number(to, 1, 4);
    memcpy(to, bytes, length);
    to += length;
    (void)!sendto(client->socket, datagram, (size_t)(to - datagram), 0, (struct sockaddr *)&client->place[client->at].at,
                  sizeof client->place[client->at].at);
}

void hags_send_up(hags *client) {
    uint8_t up[MOST_MESSAGE], *to = up;
    if (client->unanswered++ >= OTHER_NETWORK_AFTER) client->at = (client->at + 1) % client->places;
    to = put_number(to, 0x52530100, 4);
    to = put_number(to, client->key, 4);
    to = put_number(to, client->number, 4);
    to = put_number(to, client->heard, 4);
    to = put_number(to, client->length, 2);
    memcpy(to, client->line, client->length);
    to += client->length;
    hags_send(client, up, (size_t)(to - up));
    client->due = now() + client->pause;
    client->pause = client->pause * 2 < client->longest ? client->pause * 2 : client->longest;
}

void hags_forget_message(message *it) {
    free(it->bytes);
    it->bytes = NULL;
}

/* The message whose last missing piece this datagram is, NULL where it is none; it stays until the next call. Only the
 * daemon's newest message is kept. */
static const uint8_t *joined(hags *client, const uint8_t *datagram, size_t length, size_t *whole, hags_result *result) {
    message *newest = &client->newest;
    const uint8_t *head = datagram + NETWORK_BYTE, *data = head + PIECE_HEAD;
    if (length <= NETWORK_BYTE + PIECE_HEAD || head[0] != 'R' || head[1] != 'P' || head[2] != client->node || head[3])
        return NULL;
    uint32_t incarnation = (uint32_t)number_in(head + 4, 4);
    uint64_t number = number_in(head + 8, 8), index = number_in(head + 16, 4), count = number_in(head + 20, 4);
    size_t size = length - NETWORK_BYTE - PIECE_HEAD;
    bool is_last = index + 1 == count;
    if (!count || count > MOST_PIECES || index >= count || (is_last ? size > PIECE_DATA : size != PIECE_DATA)) return NULL;
    if (incarnation > newest->incarnation || (incarnation == newest->incarnation && number > newest->number)) {
        uint8_t *bytes = NULL;
        if (count > 1 && !(bytes = malloc(count * PIECE_DATA))) {
            *result = HAGS_NO_MEMORY;
            return NULL;
        }
        hags_forget_message(newest);
        newest->incarnation = incarnation;
        newest->number = number;
        newest->count = newest->missing = (uint32_t)count;
        newest->length = 0;
        newest->bytes = bytes;
        memset(newest->has, 0, sizeof newest->has);
    } else if (incarnation != newest->incarnation || number != newest->number || count != newest->count) {
        return NULL;
    }
    if (newest->has[index]) return NULL;
    newest->has[index] = true;
    newest->length += size;
    *whole = newest->length;
    if (count == 1) return data;
    memcpy(newest->bytes + index * PIECE_DATA, data, size);
    return --newest->missing ? NULL : newest->bytes;
}

/* ---- Downs ---- */

static void end_session(hags *client, hags_result end) {
    client->is_active = client->is_open = false;
    client->is_settled = true;
    client->length = 0;
    client->end = client->answer = end;
}

/* Hears one event. A refusal is told by the answer to its call, and is no event for who reads them. */
static bool hear(hags *client, const uint8_t *line, size_t length) {
    static const char refused[] = "refused ";
    size_t front = sizeof refused - 1;
    if (length > front && !memcmp(line, refused, front)) {
        const uint8_t *code = memchr(line + front, ' ', length - front);
        size_t size = code ? (size_t)(line + length - ++code) : 0;
        if (size >= sizeof client->refusal) size = sizeof client->refusal - 1;
        if (code) memcpy(client->refusal, code, size);
        client->refusal[size] = 0;
        return true;
    }
    queued *row = malloc(sizeof *row);
    hags_event *event = row ? hags_event_of((const char *)line, length) : NULL;
    if (!event) {
        free(row);
        return false;
    }
    if (event->what == HAGS_ASKED) {
        client->asker = event->asked.provider;
        client->request = event->asked.request;
    }
    *row = (queued){NULL, event};
    *client->last_link = row;
    client->last_link = &row->next;
    return true;
}

/* Are these bytes a Down, to their last one? */
static bool is_down(const uint8_t *bytes, size_t length) {
    if (length < DOWN_HEAD || number_in(bytes, 4) != 0x52530200 || bytes[16] > FULL || bytes[21] > MOST_EVENTS) return false;
    size_t at = DOWN_HEAD;
    for (int event = bytes[21]; event; event--) {
        if (length - at < 2) return false;
        size_t size = (size_t)number_in(bytes + at, 2);
        if (length - at - 2 < size) return false;
        at += 2 + size;
    }
    return at == length;
}

/* The call under way has its answer. That of a goodbye, if it was taken, ends the session. */
static void settle(hags *client) {
    client->is_settled = true;
    if (client->is_closing && client->answer == HAGS_OK) client->is_active = client->is_open = false;
    client->is_closing = false;
    if (!client->is_open) client->is_active = false;
}

static hags_result take_down(hags *client, const uint8_t *bytes, size_t length) {
    if (!is_down(bytes, length) || number_in(bytes + 4, 4) != client->key) return HAGS_OK;
    uint32_t incarnation = (uint32_t)number_in(bytes + 8, 4), done = (uint32_t)number_in(bytes + 12, 4);
    uint32_t first = (uint32_t)number_in(bytes + 17, 4), before = client->heard;
    int answer = bytes[16], count = bytes[21];
    hags_result result = HAGS_OK;
    client->last = now();
    client->unanswered = 0;
    client->was_ended = answer == FULL && !incarnation;
    if (client->was_ended || (client->has_incarnation && incarnation != client->incarnation)) {
        end_session(client, HAGS_LOST);
        return HAGS_LOST;
    }
    if (answer == FULL) {
        end_session(client, HAGS_FULL);
        return HAGS_FULL;
    }
    client->incarnation = incarnation;
    client->has_incarnation = true;
    size_t at = DOWN_HEAD;
    for (int event = 0; event < count && result == HAGS_OK; event++) {
        size_t size = (size_t)number_in(bytes + at, 2);
        if ((uint64_t)first + (uint64_t)event == (uint64_t)client->heard + 1) {
            if (hear(client, bytes + at + 2, size)) client->heard++;
            else result = HAGS_NO_MEMORY;
        }
        at += 2 + size;
    }
    if (client->length && done == client->number) {
        client->length = 0;
        client->answer = answer == TAKEN ? HAGS_OK : HAGS_REFUSED;
        client->is_open |= answer == TAKEN; /* what is taken first is the line of hags_open */
    }
    /* An answer may come before the events of its call, where more of them wait than a Down can carry. */
    bool is_whole = count < MOST_EVENTS && (uint64_t)first + (uint64_t)count <= (uint64_t)client->heard + 1;
    if (!client->is_settled && !client->length && done == client->number && is_whole) settle(client);
    if (client->heard != before) {
        client->pause = SHORTEST;
        client->due = count == MOST_EVENTS ? 0 : now() + SHORTEST;
    }
    return result;
}

/* ---- Replies ---- */

static bool is_reply(const uint8_t *bytes, size_t length) {
    return length >= REPLY_HEAD && number_in(bytes, 4) == 0x52470117;
}

static hags_result take_reply(hags *client, const uint8_t *bytes, size_t length) {
    if (!client->question || client->reply || number_in(bytes + REPLY_HEAD - 4, 4) != client->question) return HAGS_OK;
    client->reply = malloc(length - REPLY_HEAD + 1);
    if (!client->reply) return HAGS_NO_MEMORY;
    memcpy(client->reply, bytes + REPLY_HEAD, length - REPLY_HEAD);
    client->reply[length - REPLY_HEAD] = 0;
    return HAGS_OK;
}

hags_result hags_take(hags *client, const uint8_t *datagram, size_t length) {
    hags_result result = HAGS_OK;
    size_t whole;
    const uint8_t *bytes = joined(client, datagram, length, &whole, &result);
    if (!bytes) return result;
    return is_reply(bytes, whole) ? take_reply(client, bytes, whole) : take_down(client, bytes, whole);
}
