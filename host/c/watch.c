/* `watch [COUNT]` prints changes of links, addresses and routes as they arrive: as `Newlink 3 veth0`. It continues
 * after lost messages and after one that cannot be read, and reports both, as `lost some: No buffer space available`.
 * After COUNT changes the status reports whether all arrived: 0, or 4 if not. */
#include "request.h"
#include <arpa/inet.h>
#include <linux/if_addr.h>
#include <linux/if_link.h>
#include <linux/rtnetlink.h>
#include <stdio.h>
#include <stdlib.h>
#include <string.h>

static const uint32_t groups[] = {RTNLGRP_LINK, RTNLGRP_IPV4_IFADDR, RTNLGRP_IPV4_ROUTE};

/* An IPv4 address in an attribute of a message with a body of this size; 0.0.0.0 if it is missing. */
static const char *address_in(const struct neli_host *host, const struct neli_message *message, size_t size,
                              uint16_t number) {
    static char text[INET_ADDRSTRLEN];
    struct neli_walk walk;
    struct neli_attribute found = {0};
    struct in_addr address = {0};
    if (neli_attributes_of(message, size, &walk) == NELI_OK && neli_host_find(host, &walk, number, &found) &&
        found.payload_length == sizeof address)
        memcpy(&address, neli_host_item(host) + found.payload, sizeof address);
    inet_ntop(AF_INET, &address, text, sizeof text);
    return text;
}

static void print_link(const struct neli_host *host, const struct neli_message *message) {
    struct ifinfomsg link;
    struct neli_walk walk;
    struct neli_attribute name;
    if (neli_attributes_of(message, sizeof link, &walk) != NELI_OK) return;
    if (!neli_host_find(host, &walk, IFLA_IFNAME, &name) || neli_host_text(host, &name) == NULL) return;
    memcpy(&link, neli_host_item(host) + message->payload, sizeof link);
    printf("%s %d %s\n", message->type == RTM_NEWLINK ? "Newlink" : "Dellink", link.ifi_index,
           neli_host_text(host, &name));
}

static void print_address(const struct neli_host *host, const struct neli_message *message) {
    struct ifaddrmsg address;
    if (message->payload_length < sizeof address) return;
    memcpy(&address, neli_host_item(host) + message->payload, sizeof address);
    printf("%s %u %s/%u\n", message->type == RTM_NEWADDR ? "Newaddr" : "Deladdr", address.ifa_index,
           address_in(host, message, sizeof address, IFA_LOCAL), address.ifa_prefixlen);
}

static void print_route(const struct neli_host *host, const struct neli_message *message) {
    struct rtmsg route;
    if (message->payload_length < sizeof route) return;
    memcpy(&route, neli_host_item(host) + message->payload, sizeof route);
    printf("%s %s/%u\n", message->type == RTM_NEWROUTE ? "Newroute" : "Delroute",
           address_in(host, message, sizeof route, RTA_DST), route.rtm_dst_len);
}

static void print_change(const struct neli_host *host, const struct neli_message *message) {
    switch (message->type) {
    case RTM_NEWLINK:
    case RTM_DELLINK: print_link(host, message); break;
    case RTM_NEWADDR:
    case RTM_DELADDR: print_address(host, message); break;
    case RTM_NEWROUTE:
    case RTM_DELROUTE: print_route(host, message); break;
    default: break;
    }
}

/* Why some were lost. */
static const char *why(const struct neli_host *host, int32_t code) {
    static char text[128];
    neli_host_explain(host, code, NULL, text, sizeof text);
    return text;
}

int main(int argc, char **argv) {
    struct neli_host *host;
    enum status status = STATUS_COMPLETE;
    unsigned long count = argc > 1 ? strtoul(argv[1], NULL, 10) : -1ul;
    open_or_fail(&host, NETLINK_ROUTE, groups, sizeof groups / sizeof *groups);
    setvbuf(stdout, NULL, _IOLBF, 0);
    puts("watching");
    for (unsigned long i = 0; i < count; i++) {
        struct neli_message message;
        int32_t code = neli_host_next(host, NELI_MULTICAST, &message);
        if (code == NELI_ITEM) print_change(host, &message);
        else if (status_of(code) == STATUS_LOST) printf("lost some: %s\n", why(host, code));
        else fail(host, "watch", code, NULL);
        if (code != NELI_ITEM) status = STATUS_LOST;
    }
    neli_host_close(host);
    if (status != STATUS_COMPLETE) fputs("watch: some were lost\n", stderr);
    return (int)status;
}
