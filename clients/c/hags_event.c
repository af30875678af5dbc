/* What an event is: a line of the daemon's transcript, taken apart once. */
#include "hags_internal.h"

#include <stdlib.h>
#include <string.h>

/* The words of a line that is cut at its spaces, one after another. */
typedef struct {
    char *at;
} words;

static char *next_word(words *line) {
    char *word = line->at;
    if (!word || !*word || *word == ' ') return NULL;
    char *end = strchr(word, ' ');
    if (end) *end = 0;
    line->at = end ? end + 1 : NULL;
    return word;
}

/* Digits at the front, without a needless zero, of a number of at most `most`. */
static bool number_at(char **text, uint64_t most, uint64_t *number) {
    char *at = *text;
    if (*at < '0' || *at > '9' || (*at == '0' && at[1] >= '0' && at[1] <= '9')) return false;
    uint64_t sum = 0;
    for (; *at >= '0' && *at <= '9'; at++) {
        sum = sum * 10 + (uint64_t)(*at - '0');
        if (sum > most) return false;
    }
    *text = at;
    *number = sum;
    return true;
}

static bool byte_at(char **text, char byte) {
    return **text == byte && ++*text;
}

bool hags_number(char *word, uint64_t most, uint32_t *number) {
    uint64_t read;
    if (!word || !number_at(&word, most, &read) || *word) return false;
    *number = (uint32_t)read;
    return true;
}

static bool node_at(char **text, unsigned *node) {
    uint64_t read;
    if (!number_at(text, MOST_NODES, &read)) return false;
    *node = (unsigned)read;
    return true;
}

static bool word_at(char **text, uint32_t *number) {
    uint64_t read;
    if (!number_at(text, UINT32_MAX, &read)) return false;
    *number = (uint32_t)read;
    return true;
}

/* A provider, or of the hosts a node with its incarnation. */
static bool provider_at(char **text, bool is_host, hags_provider *provider) {
    uint64_t instance = 0;
    *provider = (hags_provider){0};
    if (!node_at(text, &provider->node) || !byte_at(text, '.') || !word_at(text, &provider->incarnation)) return false;
    if (is_host) return true;
    if (!byte_at(text, '.') || !number_at(text, UINT16_MAX, &instance)) return false;
    provider->instance = (unsigned)instance;
    return byte_at(text, '.') && word_at(text, &provider->join);
}

static bool view_at(char **text, hags_view *view) {
    return word_at(text, &view->number) && byte_at(text, '.') && node_at(text, &view->coordinator) && byte_at(text, '.') &&
           word_at(text, &view->incarnation);
}

static bool provider_of(char *word, hags_provider *provider) {
    return word && provider_at(&word, false, provider) && !*word;
}

static bool view_of(char *word, hags_view *view) {
    return word && view_at(&word, view) && !*word;
}

static bool protocol_of(char *word, hags_protocol *protocol) {
    return word && view_at(&word, &protocol->view) && byte_at(&word, '/') && word_at(&word, &protocol->place) && !*word;
}

/* Providers, joined by commas. Behind each there may be a byte `mark` with letters. */
static bool marked_members_of(char *word, bool are_hosts, char mark, hags_provider *room, hags_members *members) {
    if (!word) return false;
    *members = (hags_members){0, room};
    if (!strcmp(word, "-")) return true;
    do {
        if (!provider_at(&word, are_hosts, &room[members->count++])) return false;
        if (mark && (!byte_at(&word, mark) || !(word += strspn(word, HAGS_LETTERS)))) return false;
    } while (byte_at(&word, ','));
    return !*word;
}

static bool members_of(char *word, bool are_hosts, hags_provider *room, hags_members *members) {
    return marked_members_of(word, are_hosts, 0, room, members);
}

static int digit_of(char byte) {
    const char *digits = "0123456789ABCDEF", *at = byte ? strchr(digits, byte) : NULL;
    return at ? (int)(at - digits) : -1;
}

/* A value as `=` and its text, whose bytes take the place of the text. */
static bool value_of(char *word, hags_bytes *value) {
    if (!word || *word != '=') return false;
    char *from = word + 1, *to = word + 1;
    while (*from) {
        if (*from != '%') {
            *to++ = *from++;
            continue;
        }
        int high = digit_of(from[1]), low = high < 0 ? -1 : digit_of(from[2]);
        if (low < 0) return false;
        *to++ = (char)(high * 16 + low);
        from += 3;
    }
    *to = 0;
    *value = (hags_bytes){(size_t)(to - word - 1), word + 1};
    return true;
}

static const char *const KINDS[] = {"join", "leave", "fail", "expel", "state", "message", "attrs", "reflect"};

static bool kind_of(const char *word, hags_kind *kind) {
    for (int it = HAGS_JOIN; word && it < HAGS_NO_KIND; it++)
        if (!strcmp(word, KINDS[it])) {
            *kind = (hags_kind)it;
            return true;
        }
    return false;
}

static bool step_of(const char *word, hags_heard *heard) {
    static const char *const steps[] = {"once-", "begin-", "phase", "approve", "reject", "late"};
    for (int it = HAGS_ONCE; word && it <= HAGS_LATE_VOTERS; it++) {
        size_t length = strlen(steps[it]);
        bool has_kind = it <= HAGS_BEGIN;
        if (has_kind ? strncmp(word, steps[it], length) : strcmp(word, steps[it])) continue;
        heard->step = (hags_step)it;
        heard->kind = HAGS_NO_KIND;
        return !has_kind || kind_of(word + length, &heard->kind);
    }
    return false;
}

static bool read_asked(words *line, hags_asked *it) {
    return provider_of(next_word(line), &it->provider) && hags_number(next_word(line), UINT32_MAX, &it->request) &&
           (it->group = next_word(line)) && kind_of(next_word(line), &it->kind) && !line->at;
}

static bool read_heard(words *line, hags_provider *room, hags_heard *it) {
    return provider_of(next_word(line), &it->provider) && view_of(next_word(line), &it->view) &&
           (it->group = next_word(line)) && hags_number(next_word(line), UINT32_MAX, &it->place) &&
           step_of(next_word(line), it) && members_of(next_word(line), false, room, &it->members) &&
           value_of(next_word(line), &it->value) && !line->at;
}

static bool read_cast(words *line, hags_cast *it) {
    uint32_t phase;
    char *vote;
    if (!provider_of(next_word(line), &it->provider) || !protocol_of(next_word(line), &it->protocol) ||
        !hags_number(next_word(line), UINT16_MAX, &phase) || !(vote = next_word(line)) || line->at)
        return false;
    it->phase = phase;
    it->vote = *vote;
    it->value = (hags_bytes){0, NULL};
    return strchr("ACR", *vote) && (!vote[1] || value_of(vote + 1, &it->value));
}

static bool read_told(words *line, hags_told *it) {
    if (!provider_of(next_word(line), &it->provider) || !hags_number(next_word(line), UINT32_MAX, &it->request) ||
        !(it->code = next_word(line)))
        return false;
    it->detail = line->at ? line->at : "";
    return true;
}

static bool read_noted(words *line, hags_provider *room, hags_noted *it) {
    char *place;
    if (!(it->client = next_word(line)) || !view_of(next_word(line), &it->view) || !(it->group = next_word(line)) ||
        !(place = next_word(line)))
        return false;
    it->place = 0;
    it->has_place = strcmp(place, "-") != 0;
    return (!it->has_place || hags_number(place, UINT32_MAX, &it->place)) &&
           members_of(next_word(line), !strcmp(it->group, HAGS_HOSTS), room, &it->members) &&
           value_of(next_word(line), &it->value) && !line->at;
}

/* Words as `limit=20`, up to the line's end, and the length of the source's list. What a later daemon may write besides is
 * passed over. */
static bool read_attributes(words *line, hags_put *put) {
    hags_attributes *it = &put->attributes;
    static const char *const batches[] = {"none", "joins", "failures", "both"};
    for (char *name; (name = next_word(line));) {
        char *value = strchr(name, '=');
        if (!value) return false;
        *value++ = 0;
        uint32_t number = 0;
        bool is_length = !strcmp(name, "src");
        bool is_limit = !strcmp(name, "limit") || !strcmp(name, "slimit");
        if ((is_limit || is_length) && !hags_number(value, UINT32_MAX, &number)) return false;
        if (is_length) put->has_source_length = true, put->source_length = number;
        if (!strcmp(name, "phases")) it->by_vote = !strcmp(value, "n");
        if (!strcmp(name, "sphases")) it->source_by_vote = !strcmp(value, "n");
        if (!strcmp(name, "default")) it->rejects = !strcmp(value, "reject");
        if (!strcmp(name, "limit")) it->limit = number;
        if (!strcmp(name, "slimit")) it->source_limit = number;
        if (!strcmp(name, "source")) it->source = value;
        for (int batch = 0; !strcmp(name, "batch") && batch < 4; batch++)
            if (!strcmp(value, batches[batch])) it->batch = (unsigned)batch;
    }
    return !line->at;
}

/* PROVIDER/NUMBER */
static bool asker_of(char *word, hags_put *it) {
    return word && provider_at(&word, false, &it->asker) && byte_at(&word, '/') && word_at(&word, &it->request) && !*word;
}

static bool read_proposal(words *line, hags_provider *room, hags_put *it) {
    if (!kind_of(next_word(line), &it->kind)) return false;
    switch (it->kind) {
        case HAGS_JOIN: return members_of(next_word(line), false, room, &it->providers) && read_attributes(line, it);
        case HAGS_LEAVE: return asker_of(next_word(line), it) && !line->at;
        case HAGS_FAIL:
            it->detail = line->at;
            return marked_members_of(next_word(line), false, ':', room, &it->providers) && !line->at;
        case HAGS_EXPEL:
            return asker_of(next_word(line), it) && members_of(next_word(line), false, room, &it->providers) && !line->at;
        case HAGS_STATE:
        case HAGS_MESSAGE: return asker_of(next_word(line), it) && value_of(next_word(line), &it->value) && !line->at;
        case HAGS_ATTRIBUTES: return asker_of(next_word(line), it) && read_attributes(line, it);
        case HAGS_REFLECT:
            return protocol_of(next_word(line), &it->protocol) && value_of(next_word(line), &it->value) && !line->at;
        case HAGS_NO_KIND: break;
    }
    return false;
}

/* What closes a phase, or says who is late in it: the protocol and the phase, rows or providers, and a value. */
static bool read_closed(words *line, hags_provider *room, hags_put *it) {
    uint32_t phase;
    if (!protocol_of(next_word(line), &it->protocol) || !hags_number(next_word(line), UINT16_MAX, &phase)) return false;
    it->phase = phase;
    if (it->step == HAGS_LATE_VOTERS) return members_of(next_word(line), false, room, &it->providers) && !line->at;
    it->detail = line->at;
    if (!marked_members_of(next_word(line), false, '=', room, &it->providers)) return false;
    if (it->step == HAGS_REJECT) return !line->at;
    char *value = next_word(line);
    return value && !line->at && (!strcmp(value, "-") || value_of(value, &it->value));
}

static bool read_put(words *line, hags_provider *room, hags_put *it) {
    static const char *const steps[] = {"once", "begin", "phase", "approve", "reject", "late"};
    uint32_t node;
    char *step;
    *it = (hags_put){.kind = HAGS_NO_KIND};
    if (!hags_number(next_word(line), MOST_NODES, &node) || !view_of(next_word(line), &it->view) ||
        !(it->group = next_word(line)) || !hags_number(next_word(line), UINT32_MAX, &it->place))
        return false;
    it->node = node;
    it->entry = line->at;
    if (!(step = next_word(line))) return false;
    for (int at = HAGS_ONCE; at <= HAGS_LATE_VOTERS; at++) {
        it->step = (hags_step)at;
        if (!strcmp(step, steps[at])) return at <= HAGS_BEGIN ? read_proposal(line, room, it) : read_closed(line, room, it);
    }
    return false;
}

static bool read_event(hags_event *event, words line, hags_provider *room) {
    static const char *const names[] = {"asked", "heard", "cast", "told", "noted", "put"};
    const char *start = line.at, *name = next_word(&line);
    int what = HAGS_ASKED;
    while (name && what < HAGS_OTHER && strcmp(name, names[what])) what++;
    event->what = (hags_what)what;
    if (!name) return false;
    switch (event->what) {
        case HAGS_ASKED: return read_asked(&line, &event->asked);
        case HAGS_HEARD: return read_heard(&line, room, &event->heard);
        case HAGS_CAST: return read_cast(&line, &event->cast);
        case HAGS_TOLD: return read_told(&line, &event->told);
        case HAGS_NOTED: return read_noted(&line, room, &event->noted);
        case HAGS_PUT:
            if (!read_put(&line, room, &event->put)) return false;
            event->put.entry = event->line + (event->put.entry - start); /* whole, and not cut into words */
            return true;
        case HAGS_OTHER: break;
    }
    return false;
}

/* In one piece of memory: the event, room for its members (one more than the line has commas), the line as it came, and a
 * copy of it that is cut into words. */
hags_event *hags_event_of(const char *line, size_t length) {
    size_t members = 1;
    for (size_t at = 0; at < length; at++) members += line[at] == ',';
    hags_event *event = malloc(sizeof *event + members * sizeof(hags_provider) + 2 * (length + 1));
    if (!event) return NULL;
    hags_provider *room = (hags_provider *)(event + 1);
    char *kept = (char *)(room + members), *cut = kept + length + 1;
    memcpy(kept, line, length);
    memcpy(cut, line, length);
    kept[length] = cut[length] = 0;
    event->line = kept;
    event->length = length;
    if (memchr(line, 0, length) || !read_event(event, (words){cut}, room)) event->what = HAGS_OTHER;
    return event;
}

hags_bytes hags_mark(const hags_put *put, size_t at) {
    const char *mark = put->detail && at < put->providers.count ? put->detail : "";
    for (size_t before = 0; before < at; before++) mark += strcspn(mark, ","), mark += *mark == ',';
    mark += strcspn(mark, ":=");
    mark += *mark != 0;
    return (hags_bytes){strspn(mark, HAGS_LETTERS), mark};
}

hags_bytes hags_string(const char *text) {
    return (hags_bytes){strlen(text), text};
}

bool hags_is_same(hags_provider one, hags_provider other) {
    return one.node == other.node && one.incarnation == other.incarnation && one.instance == other.instance &&
           one.join == other.join;
}
