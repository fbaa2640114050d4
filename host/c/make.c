/* `make add NAME PEER ADDRESS/BITS NET/BITS` makes a pair of links, sets both up, and gives the first an address and a
 * route; `make del` with the same words removes route, address and links. It prints why the kernel refuses, and then
 * ends with status 3, and with 4 without an answer: the change may be done or not. */
#include "request.h"
#include <arpa/inet.h>
#include <linux/if_addr.h>
#include <linux/rtnetlink.h>
#include <net/if.h>
#include <stdio.h>
#include <stdlib.h>
#include <string.h>

#define NEW (NLM_F_CREATE | NLM_F_EXCL)

/* An address and its bits. */
struct net {
    struct in_addr address;
    uint8_t bits;
};

/* `192.0.2.1/24`, read. */
static struct net net_of(const char *text) {
    struct net net;
    char address[INET_ADDRSTRLEN] = "";
    unsigned bits = 33;
    int parts = sscanf(text, "%15[0-9.]/%u", address, &bits);
    if (parts != 2 || bits > 32 || inet_pton(AF_INET, address, &net.address) != 1) {
        fprintf(stderr, "make: %s is no address/bits\n", text);
        exit(STATUS_NOT_BEGUN);
    }
    net.bits = (uint8_t)bits;
    return net;
}

/* Sends a change, or ends the program. */
static void do_it(struct neli_host *host, uint16_t type, uint16_t flags, const struct body *body) {
    struct neli_message message;
    int32_t code = ask(host, type, flags, body, &message);
    if (code != NELI_OK) fail(host, "make", code, &message);
}

/* The index of the link with this name. */
static int index_of(struct neli_host *host, const char *name) {
    struct body body = link_body(0, false);
    struct neli_message message;
    struct ifinfomsg link;
    size_t handle;
    put_text(&body, IFLA_IFNAME, name);
    int32_t code = neli_host_send(host, RTM_GETLINK, 0, body.bytes, body.writer.end, &handle);
    if (code == NELI_OK) code = neli_host_next(host, handle, &message);
    if (code != NELI_ITEM || message.payload_length < sizeof link) fail(host, "make", code, &message);
    memcpy(&link, neli_host_item(host) + message.payload, sizeof link);
    neli_host_close_request(host, handle);
    return link.ifi_index;
}

static struct body address_body(int index, const char *text) {
    struct net net = net_of(text);
    struct body body = {0};
    struct ifaddrmsg address = {.ifa_family = AF_INET, .ifa_prefixlen = net.bits, .ifa_index = (uint32_t)index};
    put(&body, &address, sizeof address);
    put_attribute(&body, IFA_LOCAL, &net.address, sizeof net.address);
    return body;
}

static struct body route_body(int index, const char *text) {
    struct net net = net_of(text);
    struct body body = {0};
    struct rtmsg route = {
        .rtm_family = AF_INET,
        .rtm_dst_len = net.bits,
        .rtm_table = RT_TABLE_MAIN,
        .rtm_protocol = RTPROT_STATIC,
        .rtm_scope = RT_SCOPE_LINK,
        .rtm_type = RTN_UNICAST,
    };
    put(&body, &route, sizeof route);
    put_attribute(&body, RTA_DST, &net.address, sizeof net.address);
    put_attribute(&body, RTA_OIF, &index, sizeof index);
    return body;
}

static void add(struct neli_host *host, char **words) {
    struct body links = pair(words[0], words[1]);
    do_it(host, RTM_NEWLINK, NEW, &links);
    int index = index_of(host, words[0]);
    printf("made %s %d\n", words[0], index);
    struct body up = link_body(index, true), other = link_body(index_of(host, words[1]), true);
    do_it(host, RTM_SETLINK, 0, &up);
    do_it(host, RTM_SETLINK, 0, &other);
    printf("up %s\n", words[0]);
    struct body address = address_body(index, words[2]);
    do_it(host, RTM_NEWADDR, NEW, &address);
    printf("address %s\n", words[2]);
    struct body route = route_body(index, words[3]);
    do_it(host, RTM_NEWROUTE, NEW, &route);
    printf("route %s\n", words[3]);
}

static void del(struct neli_host *host, char **words) {
    int index = index_of(host, words[0]);
    struct body route = route_body(index, words[3]), address = address_body(index, words[2]);
    struct body link = link_body(index, false);
    do_it(host, RTM_DELROUTE, 0, &route);
    do_it(host, RTM_DELADDR, 0, &address);
    do_it(host, RTM_DELLINK, 0, &link);
    printf("gone %s\n", words[0]);
}

int main(int argc, char **argv) {
    struct neli_host *host;
    bool is_add = argc == 6 && strcmp(argv[1], "add") == 0;
    if (!is_add && (argc != 6 || strcmp(argv[1], "del") != 0)) {
        fputs("usage: make add|del NAME PEER ADDRESS/BITS NET/BITS\n", stderr);
        return STATUS_NOT_BEGUN;
    }
    open_or_fail(&host, NETLINK_ROUTE, NULL, 0);
    (is_add ? add : del)(host, argv + 2);
    neli_host_close(host);
    return 0;
}
