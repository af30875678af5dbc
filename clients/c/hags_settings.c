/* Where the settings have the daemon of a node. */
#include "hags_internal.h"

#include <arpa/inet.h>
#include <string.h>

enum { DEFAULT_PORT = 12347, LAST_PORT = 65000 };

int hags_next_line(char **text, char **word, int most) {
    while (*text) {
        char *line = *text, *end = strchr(line, '\n');
        if (end) *end = 0;
        *text = end ? end + 1 : NULL;
        if (*line == '#') continue;
        int count = 0;
        for (char *it = strtok_r(line, " ", &line); it; it = strtok_r(NULL, " ", &line)) {
            if (count < most) word[count] = it;
            count++;
        }
        if (count) return count;
    }
    return 0;
}

static void add_place(hags *client, uint32_t network, struct in_addr address) {
    int at = client->places++;
    for (; at > 0 && client->place[at - 1].network > network; at--) client->place[at] = client->place[at - 1];
    client->place[at].network = (uint8_t)network;
    client->place[at].at = (struct sockaddr_in){.sin_family = AF_INET, .sin_addr = address};
}

bool hags_read_settings(hags *client, char *text) {
    uint32_t port = DEFAULT_PORT, node, network;
    bool has_node = false, has_adapters = false;
    struct in_addr address;
    char *word[4];
    for (int count; (count = hags_next_line(&text, word, 4)) && strcmp(word[0], "begin");) {
        if (count == 2 && !strcmp(word[0], "node") && hags_number(word[1], MOST_NODES, &node))
            has_node |= (int)node == client->node;
        if (count == 2 && !strcmp(word[0], "port") && (!hags_number(word[1], LAST_PORT, &port) || !port)) return false;
        if (count != 4 || strcmp(word[0], "adapter")) continue;
        has_adapters = true;
        if (!hags_number(word[1], MOST_NODES, &node) || !hags_number(word[2], MOST_NETWORKS, &network) || !network ||
            inet_pton(AF_INET, word[3], &address) != 1)
            return false;
        if ((int)node == client->node && client->places < MOST_NETWORKS) add_place(client, network, address);
    }
    if (!has_adapters) {
        address.s_addr = htonl(0x0a010000u | (uint32_t)client->node);
        add_place(client, 1, address);
    }
    for (int at = 0; at < client->places; at++)
        client->place[at].at.sin_port = htons((uint16_t)(port + (uint32_t)client->node));
    return has_node && client->places > 0;
}
