/* Readers by libnl: `walk` sees each attribute in a callback, and `cache` has libnl-route make objects of all. */
#include "reader.h"
#include <netlink/cache.h>
#include <netlink/msg.h>
#include <netlink/netlink.h>
#include <netlink/route/link.h>
#include <netlink/route/route.h>
#include <string.h>

struct state {
    const struct list *list;
    struct counts *counts;
};

static int add_message(struct nl_msg *message, void *data) {
    struct state *state = data;
    struct nlmsghdr *header = nlmsg_hdr(message);
    struct nlattr *attribute;
    int left;
    if (header->nlmsg_type != state->list->answer) return NL_OK;
    state->counts->messages++;
    nlmsg_for_each_attr(attribute, header, (int)state->list->header, left) {
        state->counts->attributes++;
        state->counts->sum += (uint64_t)nla_type(attribute) + (uint64_t)nla_len(attribute);
    }
    return NL_OK;
}

static void walk(struct nl_sock *socket, const struct list *list, struct counts *counts) {
    struct state state = {list, counts};
    uint8_t body[sizeof(struct ifinfomsg)] = {list->family};
    nl_socket_modify_cb(socket, NL_CB_VALID, NL_CB_CUSTOM, add_message, &state);
    if (nl_send_simple(socket, list->request, NLM_F_DUMP, body, list->header) < 0) fail("the request is not sent");
    if (nl_recvmsgs_default(socket) < 0) fail("the list does not end");
}

static void cache(struct nl_sock *socket, const struct list *list, struct counts *counts) {
    struct nl_cache *all;
    int code = list->is_links ? rtnl_link_alloc_cache(socket, list->family, &all)
                              : rtnl_route_alloc_cache(socket, list->family, 0, &all);
    if (code < 0) fail(nl_geterror(code));
    counts->messages = (uint64_t)nl_cache_nitems(all);
    nl_cache_free(all);
}

void read_list(const char *how, const struct list *list, struct counts *counts) {
    struct nl_sock *socket = nl_socket_alloc();
    if (socket == NULL || nl_connect(socket, NETLINK_ROUTE) < 0) fail("no socket");
    if (strcmp(how, "cache") == 0) cache(socket, list, counts);
    else walk(socket, list, counts);
    nl_socket_free(socket);
}
