/* Readers by this library: `lent` and `owned` by a host, `several` by a router of their own, 32 messages at once, and
 * `datagrams` without a router. */
#include "reader.h"
#include "link.h"
#include "neli_host.h"
#include <linux/netlink.h>
#include <string.h>
#include <sys/socket.h>

/* How many messages and attributes are stored by one call. */
enum { MESSAGES = 32, ATTRIBUTES = 16 };

/* The header of a body of any list. */
struct body {
    uint8_t bytes[sizeof(struct ifinfomsg)];
};

static void add_message(const uint8_t *bytes, size_t length, const struct neli_message *message,
                        const struct list *list, struct counts *counts) {
    struct neli_attribute attributes[ATTRIBUTES];
    struct neli_walk walk;
    size_t count;
    int32_t code;
    if (message->type != list->answer) return;
    counts->messages++;
    if (neli_attributes_of(message, list->header, &walk) != NELI_OK) fail("a message is too short");
    while ((code = neli_next_attributes(bytes, length, &walk, attributes, ATTRIBUTES, &count)) == NELI_ITEM) {
        counts->attributes += count;
        for (size_t i = 0; i < count; i++) counts->sum += attributes[i].number + attributes[i].payload_length;
    }
    if (code != NELI_END) fail("an attribute can't be read");
}

/* A new host, and the handle of the list that it has requested. */
static struct neli_host *requested(const struct list *list, size_t *handle) {
    struct neli_host *host;
    struct body body = {{list->family}};
    if (neli_host_open(&host, NETLINK_ROUTE, NULL, 0) != NELI_OK) fail("no socket");
    if (neli_host_send(host, list->request, NLM_F_DUMP, &body, list->header, handle) != NELI_OK)
        fail("the request is not sent");
    return host;
}

static void finish(struct neli_host *host, size_t handle, int32_t code) {
    struct neli_verdict verdict;
    if (code != NELI_END || neli_host_verdict(host, handle, &verdict) != NELI_OK) fail("the list is not whole");
    neli_host_close(host);
}

static void read_owned(const struct list *list, struct counts *counts) {
    struct neli_message message;
    size_t handle;
    int32_t code;
    struct neli_host *host = requested(list, &handle);
    while ((code = neli_host_next(host, handle, &message)) == NELI_ITEM)
        add_message(neli_host_item(host), neli_host_item_length(host), &message, list, counts);
    finish(host, handle, code);
}

static void read_lent(const struct list *list, struct counts *counts) {
    struct neli_lent lent;
    size_t handle;
    int32_t code;
    struct neli_host *host = requested(list, &handle);
    while ((code = neli_host_lend(host, handle, &lent)) == NELI_ITEM) {
        add_message(lent.bytes, lent.length, &lent.message, list, counts);
        neli_host_pass(host, handle);
    }
    finish(host, handle, code);
}

/* Waits for a datagram, and hands it in. */
static void hand_in(struct link *link, struct neli_router *router) {
    struct neli_received received;
    int32_t code;
    while ((code = link_receive(link, &received)) == NELI_WAITS)
        if (link_wait(link, link_end_of_wait(link), false) != NELI_OK) fail("the wait has ended");
    if (code != NELI_OK || neli_router_datagram(router, link->room, received.length, NULL, 0) != NELI_OK)
        fail("nothing is received");
}

static void read_several(const struct list *list, struct counts *counts) {
    struct link link;
    struct neli_router router = NELI_ROUTER_CLOSED;
    struct neli_lent items[MESSAGES];
    struct neli_sent sent;
    struct neli_verdict verdict;
    struct body body = {{list->family}};
    uint8_t out[64];
    size_t count;
    int32_t code;
    if (link_open(&link, NETLINK_ROUTE, NULL, 0) != NELI_OK) fail("no socket");
    if (neli_router_new(&router, link.port) != NELI_OK) fail("no memory");
    code = neli_router_send(&router, list->request, NLM_F_DUMP, &body, list->header, out, sizeof out, &sent);
    if (code != NELI_OK || link_send(&link, out, sent.length) != NELI_OK) fail("the request is not sent");
    while ((code = neli_router_lend_items(&router, sent.handle, items, MESSAGES, &count)) != NELI_END) {
        if (code == NELI_WAITS) hand_in(&link, &router);
        else if (code != NELI_ITEM) fail("the list does not end");
        for (size_t i = 0; i < count; i++)
            add_message(items[i].bytes, items[i].length, &items[i].message, list, counts);
        neli_router_pass_items(&router, sent.handle, count);
    }
    if (neli_router_verdict(&router, sent.handle, &verdict) != NELI_OK) fail("the list is not whole");
    neli_router_free(&router);
    link_close(&link);
}

/* Adds the messages of a datagram; whether the list ends with it. */
static bool add_datagram(const uint8_t *bytes, size_t length, const struct list *list, struct counts *counts) {
    struct neli_walk walk = {0, length};
    struct neli_message message;
    int32_t code;
    while ((code = neli_next_message(bytes, length, &walk, &message)) == NELI_ITEM) {
        if (message.type == NLMSG_ERROR) fail("the kernel refuses");
        if (message.type == NLMSG_DONE) return true;
        add_message(bytes, length, &message, list, counts);
    }
    if (code != NELI_END) fail("a message can't be read");
    return false;
}

static void read_datagrams(const struct list *list, struct counts *counts) {
    size_t length;
    uint32_t group;
    size_t handle;
    struct neli_host *host = requested(list, &handle);
    do
        if (neli_host_receive(host, &length, &group) != NELI_OK) fail("nothing is received");
    while (!add_datagram(neli_host_datagram(host), length, list, counts));
    neli_host_close(host);
}

void read_list(const char *how, const struct list *list, struct counts *counts) {
    if (strcmp(how, "lent") == 0) read_lent(list, counts);
    else if (strcmp(how, "owned") == 0) read_owned(list, counts);
    else if (strcmp(how, "several") == 0) read_several(list, counts);
    else read_datagrams(list, counts);
}
