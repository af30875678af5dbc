/* The driver of clients/c, as tests/conformance/README.md has it. */
#define _POSIX_C_SOURCE 200809L
#include "../../clients/c/hags.h"

#include <poll.h>
#include <stdio.h>
#include <stdlib.h>
#include <string.h>
#include <unistd.h>

enum { MOST_WORDS = 80, MOST_COMMAND = 8192 };

static void stop(const char *why) {
    fprintf(stderr, "driver: %s\n", why);
    exit(1);
}

/* ---- Events, spelled anew ---- */

static void print_value(hags_bytes value) {
    if (!value.bytes) return;
    putchar('=');
    for (size_t at = 0; at < value.length; at++) {
        unsigned char byte = (unsigned char)value.bytes[at];
        printf(byte > ' ' && byte <= '~' && byte != '%' ? "%c" : "%%%02X", byte);
    }
}

static void print_provider(hags_provider it) {
    printf("%u.%u.%u.%u", it.node, it.incarnation, it.instance, it.join);
}

static void print_view(hags_view it) {
    printf("%u.%u.%u", it.number, it.coordinator, it.incarnation);
}

static void print_state(hags_members members, bool are_hosts, hags_bytes value) {
    if (!members.count) putchar('-');
    for (size_t at = 0; at < members.count; at++) {
        if (at) putchar(',');
        if (are_hosts) printf("%u.%u", members.list[at].node, members.list[at].incarnation);
        else print_provider(members.list[at]);
    }
    putchar(' ');
    print_value(value);
}

static void print_members(hags_members members) {
    if (!members.count) putchar('-');
    for (size_t at = 0; at < members.count; at++) {
        if (at) putchar(',');
        print_provider(members.list[at]);
    }
}

static const char *const KINDS[] = {"join", "leave", "fail", "expel", "state", "message", "attrs", "reflect"};
static const char *const STEPS[] = {"once-", "begin-", "phase", "approve", "reject", "late"};

static void print_attributes(const hags_attributes *it) {
    static const char *const batches[] = {"", " batch=joins", " batch=failures", " batch=both"};
    if (it->by_vote) printf(" phases=n");
    printf("%s%s", batches[it->batch], it->rejects ? " default=reject" : "");
    if (it->limit) printf(" limit=%u", it->limit);
    if (it->source) printf(" source=%s", it->source);
    if (it->source_by_vote) printf(" sphases=n");
    if (it->source_limit) printf(" slimit=%u", it->source_limit);
}

/* Who failed with the cause, or who voted with the vote, `mark` between the two. */
static void print_marked(const hags_put *put, char mark) {
    if (!put->providers.count) putchar('-');
    for (size_t at = 0; at < put->providers.count; at++) {
        hags_bytes said = hags_mark(put, at);
        if (at) putchar(',');
        print_provider(put->providers.list[at]);
        printf("%c%.*s", mark, (int)said.length, said.bytes);
    }
}

static void print_protocol(hags_protocol it) {
    print_view(it.view);
    printf("/%u", it.place);
}

static void print_proposal(const hags_put *put) {
    printf("%s ", KINDS[put->kind]);
    if (put->kind == HAGS_JOIN) print_members(put->providers);
    else if (put->kind == HAGS_FAIL) print_marked(put, ':');
    else if (put->kind == HAGS_REFLECT) print_protocol(put->protocol);
    else print_provider(put->asker), printf("/%u", put->request);
    if (put->kind == HAGS_EXPEL) putchar(' '), print_members(put->providers);
    if (put->value.bytes) putchar(' '), print_value(put->value);
    print_attributes(&put->attributes);
    if (put->has_source_length) printf(" src=%u", put->source_length);
}

static void print_entry(const hags_put *put) {
    static const char *const steps[] = {"once", "begin", "phase", "approve", "reject", "late"};
    printf("%s ", steps[put->step]);
    if (put->step <= HAGS_BEGIN) {
        print_proposal(put);
        return;
    }
    print_protocol(put->protocol);
    printf(" %u ", put->phase);
    if (put->step == HAGS_LATE_VOTERS) print_members(put->providers);
    else print_marked(put, '=');
    if (put->step == HAGS_PHASE || put->step == HAGS_APPROVE) {
        putchar(' ');
        if (put->value.bytes) print_value(put->value);
        else putchar('-');
    }
}

static void print_noted(const hags_noted *it) {
    printf("noted %s ", it->client);
    print_view(it->view);
    printf(" %s ", it->group);
    if (it->has_place) printf("%u ", it->place);
    else printf("- ");
    print_state(it->members, !strcmp(it->group, HAGS_HOSTS), it->value);
}

static void print_event(const hags_event *event) {
    switch (event->what) {
        case HAGS_ASKED:
            printf("event asked ");
            print_provider(event->asked.provider);
            printf(" %u %s %s", event->asked.request, event->asked.group, KINDS[event->asked.kind]);
            break;
        case HAGS_HEARD:
            printf("event heard ");
            print_provider(event->heard.provider);
            putchar(' ');
            print_view(event->heard.view);
            printf(" %s %u %s%s ", event->heard.group, event->heard.place, STEPS[event->heard.step],
                   event->heard.kind == HAGS_NO_KIND ? "" : KINDS[event->heard.kind]);
            print_state(event->heard.members, false, event->heard.value);
            break;
        case HAGS_CAST:
            printf("event cast ");
            print_provider(event->cast.provider);
            putchar(' ');
            print_protocol(event->cast.protocol);
            printf(" %u %c", event->cast.phase, event->cast.vote);
            print_value(event->cast.value);
            break;
        case HAGS_TOLD:
            printf("event told ");
            print_provider(event->told.provider);
            printf(" %u %s%s%s", event->told.request, event->told.code, *event->told.detail ? " " : "", event->told.detail);
            break;
        case HAGS_NOTED:
            printf("event ");
            print_noted(&event->noted);
            break;
        case HAGS_PUT:
            printf("event put %u ", event->put.node);
            print_view(event->put.view);
            printf(" %s %u ", event->put.group, event->put.place);
            print_entry(&event->put);
            break;
        case HAGS_OTHER: stop(event->line);
    }
    putchar('\n');
}

static void print_events(hags *client) {
    for (hags_event *event; (event = hags_next(client)); free(event)) print_event(event);
}

/* ---- Commands ---- */

static int digit_of(char byte) {
    const char *digits = "0123456789ABCDEF", *at = byte ? strchr(digits, byte) : NULL;
    if (!at) stop("a text is not spelled so");
    return (int)(at - digits);
}

/* The bytes that a text spells, in the text's own place. */
static hags_bytes text_of(char *text) {
    char *from = strcmp(text, "~") ? text : text + 1, *to = text;
    while (*from) {
        bool is_spelled = *from == '%';
        *to++ = is_spelled ? (char)(digit_of(from[1]) * 16 + digit_of(from[2])) : *from;
        from += is_spelled ? 3 : 1;
    }
    return (hags_bytes){(size_t)(to - text), text};
}

static hags_attributes attributes_of(char **word) {
    hags_attributes it = {0};
    for (; *word; word++) {
        char *value = strchr(*word, '=');
        if (!value) stop("an attribute has no value");
        *value++ = 0;
        if (!strcmp(*word, "phases")) it.by_vote = *value == 'n';
        else if (!strcmp(*word, "sphases")) it.source_by_vote = *value == 'n';
        else if (!strcmp(*word, "default")) it.rejects = !strcmp(value, "reject");
        else if (!strcmp(*word, "limit")) it.limit = (unsigned)atoi(value);
        else if (!strcmp(*word, "slimit")) it.source_limit = (unsigned)atoi(value);
        else if (!strcmp(*word, "source")) it.source = value;
        else if (!strcmp(value, "joins")) it.batch = HAGS_JOINS;
        else if (!strcmp(value, "failures")) it.batch = HAGS_FAILURES;
        else if (!strcmp(value, "both")) it.batch = HAGS_BOTH;
    }
    return it;
}

static hags_result expel(hags *client, char **word) {
    hags_provider list[MOST_WORDS];
    size_t count = 0;
    for (char **it = word + 3; *it; it++, count++)
        if (sscanf(*it, "%u.%u.%u.%u", &list[count].node, &list[count].incarnation, &list[count].instance, &list[count].join) != 4)
            stop("this is no provider");
    return hags_expel(client, word[1], *word[2] == 'n', (hags_members){count, list});
}

static hags_result vote(hags *client, char **word) {
    bool has_value = word[2][1] == '=';
    return hags_vote(client, word[1], word[2][0], has_value ? text_of(word[2] + 2) : (hags_bytes){0, NULL});
}

/* `join GROUP INSTANCE [ATTR ..]` and `attrs GROUP PH [ATTR ..]`. */
static hags_result with_attributes(hags *client, char **word) {
    if (strcmp(word[0], "join") && strcmp(word[0], "attrs")) stop("there is no such command");
    hags_attributes attributes = attributes_of(word + 3);
    if (!strcmp(word[0], "join")) return hags_join(client, word[1], (unsigned)atoi(word[2]), &attributes);
    return hags_change(client, word[1], *word[2] == 'n', &attributes);
}

static hags_result do_command(hags *client, char **word) {
    if (!strcmp(word[0], "open")) return hags_open(client, word[1]);
    if (!strcmp(word[0], "close")) return hags_close(client);
    if (!strcmp(word[0], "leave")) return hags_leave(client, word[1], *word[2] == 'n');
    if (!strcmp(word[0], "state")) return hags_state(client, word[1], *word[2] == 'n', text_of(word[3]));
    if (!strcmp(word[0], "message")) return hags_message(client, word[1], *word[2] == 'n', text_of(word[3]));
    if (!strcmp(word[0], "vote")) return vote(client, word);
    if (!strcmp(word[0], "expel")) return expel(client, word);
    if (!strcmp(word[0], "subscribe")) return hags_subscribe(client, word[1]);
    if (!strcmp(word[0], "unsubscribe")) return hags_unsubscribe(client, word[1]);
    return with_attributes(client, word);
}

static void answer(hags *client, const char *command, hags_result result) {
    switch (result) {
        case HAGS_OK:
            if (strcmp(command, "open")) puts("did taken");
            else printf("did taken %u\n", hags_incarnation(client));
            break;
        case HAGS_REFUSED: printf("did refused%s%s\n", *hags_refusal(client) ? " " : "", hags_refusal(client)); break;
        case HAGS_LATE: puts("did late"); break;
        case HAGS_BAD: puts("did bad"); break;
        case HAGS_LOST: puts("did lost"); break;
        case HAGS_FULL: puts("did full"); break;
        default: stop(hags_text(result));
    }
}

static void look(hags *client, const char *group) {
    hags_event *event;
    hags_result result = hags_look(client, group, &event);
    print_events(client);
    if (result != HAGS_OK) {
        answer(client, "look", result);
        return;
    }
    printf(event ? "did stands " : "did stands");
    if (event) print_noted(&event->noted);
    putchar('\n');
    free(event);
}

/* Carries out the command of this line. False where it is to end. */
static bool command(hags *client, char *line) {
    char *word[MOST_WORDS + 1] = {NULL};
    int count = 0;
    hags_result result;
    if (!strncmp(line, "raw ", 4)) {
        word[0] = "raw";
        result = hags_call(client, line + 4);
    } else {
        for (char *it = strtok(line, " "); it && count < MOST_WORDS; it = strtok(NULL, " ")) word[count++] = it;
        if (!count || !strcmp(word[0], "quit")) return false;
        if (!strcmp(word[0], "look")) {
            look(client, word[1]);
            return true;
        }
        result = do_command(client, word);
    }
    print_events(client);
    answer(client, word[0], result);
    return true;
}

/* Reads what came on standard input, and carries out each line of it. False where it is to end. */
static bool read_commands(hags *client) {
    static char kept[MOST_COMMAND];
    static size_t length;
    ssize_t came = read(STDIN_FILENO, kept + length, sizeof kept - length);
    if (came <= 0) return false;
    length += (size_t)came;
    for (char *end; (end = memchr(kept, '\n', length));) {
        *end++ = 0;
        if (!command(client, kept)) return false;
        length -= (size_t)(end - kept);
        memmove(kept, end, length);
    }
    return true;
}

static char *read_file(const char *name) {
    FILE *file = fopen(name, "r");
    char *text = calloc(1, 1 << 16);
    if (!file || !text || !fread(text, 1, (1 << 16) - 1, file)) stop("the settings cannot be read");
    fclose(file);
    return text;
}

int main(int count, char **word) {
    if (count != 4) stop("usage: driver SETTINGS NODE SECONDS");
    char *settings = read_file(word[1]);
    hags *client = hags_new(settings, atoi(word[2]));
    free(settings);
    if (!client) stop("the settings have no such node");
    hags_patience(client, atoi(word[3]) * 1000);
    setvbuf(stdout, NULL, _IOLBF, 0);
    struct pollfd ready[] = {{STDIN_FILENO, POLLIN, 0}, {hags_fd(client), POLLIN, 0}};
    for (bool goes_on = true; goes_on;) {
        poll(ready, 2, -1);
        bool was_open = hags_is_open(client);
        hags_result result = hags_dispatch(client);
        print_events(client);
        if (was_open && result == HAGS_LOST) puts("lost");
        if (ready[0].revents) goes_on = read_commands(client);
    }
    hags_delete(client);
}
