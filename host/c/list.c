/* Lists links and their IPv4 addresses, as `link 1 lo mtu 65536 up` and `address 1 127.0.0.1/8`; `list INDEX` only the
 * addresses of that link. A list that changes meanwhile is requested again. The status reports whether it is complete:
 * 0; 2 if it still changed, 3 if the kernel ended the list with an error, 4 if a part was lost, with a line on stderr.
 * The part that arrived is printed in any case. */
#include "request.h"
#include <arpa/inet.h>
#include <linux/if_addr.h>
#include <linux/if_link.h>
#include <linux/rtnetlink.h>
#include <net/if.h>
#include <stdio.h>
#include <stdlib.h>
#include <string.h>

/* The maximum number of requests for a list that changes meanwhile. */
#define TIMES 5

/* The lines of a list. */
struct lines {
    char *text;
    size_t size;
    FILE *out;
};

/* An empty list, which replaces the earlier attempt. */
static void begin(struct lines *lines) {
    rewind(lines->out);
}

static void put_link(const struct neli_host *host, const struct neli_message *message, void *list) {
    struct lines *lines = list;
    struct ifinfomsg link;
    struct neli_walk walk;
    struct neli_attribute attributes[16], name = {0}, mtu = {0};
    size_t count;
    uint32_t bytes;
    if (message == NULL) {
        begin(lines);
        return;
    }
    if (neli_attributes_of(message, sizeof link, &walk) != NELI_OK) return;
    while (neli_next_attributes(neli_host_item(host), neli_host_item_length(host), &walk, attributes, 16, &count) ==
           NELI_ITEM)
        for (size_t i = 0; i < count; i++) {
            if (attributes[i].number == IFLA_IFNAME) name = attributes[i];
            if (attributes[i].number == IFLA_MTU) mtu = attributes[i];
        }
    if (name.number != IFLA_IFNAME || neli_host_text(host, &name) == NULL || mtu.number != IFLA_MTU) return;
    if (neli_get_u32(neli_host_item(host) + mtu.payload, mtu.payload_length, 0, &bytes) != NELI_OK) return;
    memcpy(&link, neli_host_item(host) + message->payload, sizeof link);
    const char *state = link.ifi_flags & IFF_UP ? "up" : "down";
    fprintf(lines->out, "link %d %s mtu %u %s\n", link.ifi_index, neli_host_text(host, &name), bytes, state);
}

static void put_address(const struct neli_host *host, const struct neli_message *message, void *list) {
    struct lines *lines = list;
    struct ifaddrmsg address;
    struct neli_walk walk;
    struct neli_attribute local;
    char text[INET_ADDRSTRLEN];
    if (message == NULL) {
        begin(lines);
        return;
    }
    if (neli_attributes_of(message, sizeof address, &walk) != NELI_OK) return;
    if (!neli_host_find(host, &walk, IFA_LOCAL, &local) || local.payload_length != 4) return;
    memcpy(&address, neli_host_item(host) + message->payload, sizeof address);
    inet_ntop(AF_INET, neli_host_item(host) + local.payload, text, sizeof text);
    fprintf(lines->out, "address %u %s/%u\n", address.ifa_index, text, address.ifa_prefixlen);
}

/* Requests a list, and prints it: returns the status that reports whether it is complete. */
static enum status print_list(struct neli_host *host, struct neli_dump dump) {
    struct neli_message last;
    struct lines lines = {0};
    lines.out = open_memstream(&lines.text, &lines.size);
    if (lines.out == NULL) fail(host, "list", NELI_MEMORY, NULL);
    dump.times = TIMES;
    dump.list = &lines;
    int32_t code = neli_host_dump(host, &dump, &last);
    if (fclose(lines.out) != 0) fail(host, "list", NELI_MEMORY, NULL);
    fwrite(lines.text, 1, lines.size, stdout);
    free(lines.text);
    if (code != NELI_OK) say(host, "list", code, &last);
    return status_of(code);
}

int main(int argc, char **argv) {
    struct neli_host *host;
    struct ifinfomsg links = {0};
    struct ifaddrmsg addresses = {.ifa_family = AF_INET};
    open_or_fail(&host, NETLINK_ROUTE, NULL, 0);
    if (argc > 1) {
        addresses.ifa_index = (uint32_t)strtoul(argv[1], NULL, 10);
        int32_t code = neli_host_set_strict(host);
        if (code != NELI_OK) fail(host, "list", code, NULL);
    }
    struct neli_dump of_links = {.type = RTM_GETLINK, .body = &links, .length = sizeof links, .take = put_link};
    struct neli_dump of_addresses = {
        .type = RTM_GETADDR, .body = &addresses, .length = sizeof addresses, .take = put_address};
    enum status one = argc > 1 ? STATUS_COMPLETE : print_list(host, of_links), other = print_list(host, of_addresses);
    neli_host_close(host);
    return one != STATUS_COMPLETE ? (int)one : (int)other;
}
