/* first SETTINGS NODE NAME: joins the group db, sets its value, and writes what it hears for a second. */
#include "../hags.h"

#include <stdio.h>
#include <stdlib.h>

static int fail(hags *client, const char *what, hags_result result) {
    const char *why = client ? hags_refusal(client) : "";
    fprintf(stderr, "%s: %s %s\n", what, hags_text(result), why);
    hags_delete(client);
    return 1;
}

int main(int count, char **word) {
    static char settings[65536];
    FILE *file = count == 4 ? fopen(word[1], "r") : NULL;
    if (!file || !fread(settings, 1, sizeof settings - 1, file)) return fail(NULL, "settings", HAGS_FAULT);
    fclose(file);

    hags *client = hags_new(settings, atoi(word[2]));
    if (!client) return fail(NULL, "settings", HAGS_BAD);
    hags_result result = hags_open(client, word[3]);
    if (result != HAGS_OK) return fail(client, "open", result);
    if ((result = hags_join(client, "db", 7, NULL)) != HAGS_OK) return fail(client, "join", result);

    while (hags_wait(client, 1000) == HAGS_OK) {
        hags_event *event = hags_next(client);
        puts(event->line);
        if (event->what == HAGS_HEARD && event->heard.kind == HAGS_JOIN) hags_state(client, "db", false, hags_string("red"));
        free(event);
    }
    hags_close(client);
    hags_delete(client);
}
