/* Prints a link by the names of its tables: as JSON, and each attribute with its path, its value and its place. */
#include <linux/rtnetlink.h>
#include <neli.h>
#include <stdio.h>

/* Prints a message of routing as JSON, and then each of its attributes: its path, its value and its place. */
static void print_message(struct neli_tables *tables, const uint8_t *bytes, size_t length,
                          const struct neli_message *message) {
    static struct neli_named items[1024];
    static char text[65536];
    size_t count, size;
    if (neli_message_json(tables, NETLINK_ROUTE, bytes, length, message, text, sizeof text, &size) == NELI_OK)
        printf("%.*s\n", (int)size, text);
    if (neli_named_items(tables, NETLINK_ROUTE, bytes, length, message, items, 1024, &count, text, sizeof text,
                         &size) != NELI_OK)
        return;
    for (const struct neli_named *it = items; it < items + count; it++)
        printf("%.*s = %.*s, %zu bytes at %zu\n", (int)it->path_length, text + it->path, (int)it->value_length,
               text + it->value, it->payload_length, it->payload);
}

int main(void) {
    /* A link of the name `lo`: its header, struct ifinfomsg, and IFLA_IFNAME. */
    static const uint8_t bytes[] = {40, 0, 0, 0, RTM_NEWLINK, 0, 0, 0, 1, 0, 0, 0, 0, 0, 0, 0, 0, 0, 4, 3, 1, 0, 0, 0,
                                    73, 0, 1, 0, 0, 0, 0, 0, 7, 0, IFLA_IFNAME, 0, 'l', 'o', 0, 0};
    struct neli_tables tables = NELI_TABLES_CLOSED;
    struct neli_walk walk = {0, sizeof bytes};
    struct neli_message message;
    if (neli_tables_built_in(&tables) != NELI_OK) return 1;
    while (neli_next_message(bytes, sizeof bytes, &walk, &message) == NELI_ITEM)
        print_message(&tables, bytes, sizeof bytes, &message);
    neli_tables_free(&tables);
    return walk.place != walk.end;
}
