/* The reader by libmnl. */
#include "reader.h"
#include <libmnl/libmnl.h>

/* What the kernel fills at most in a dump, MNL_SOCKET_DUMP_SIZE from libmnl 1.0.5 on. */
enum { ROOM = 32768 };

struct state {
    const struct list *list;
    struct counts *counts;
};

static int add_message(const struct nlmsghdr *message, void *data) {
    struct state *state = data;
    const struct nlattr *attribute;
    if (message->nlmsg_type != state->list->answer) return MNL_CB_OK;
    state->counts->messages++;
    mnl_attr_for_each(attribute, message, (unsigned)state->list->header) {
        state->counts->attributes++;
        state->counts->sum += mnl_attr_get_type(attribute) + mnl_attr_get_payload_len(attribute);
    }
    return MNL_CB_OK;
}

void read_list(const char *how, const struct list *list, struct counts *counts) {
    static char room[ROOM];
    struct state state = {list, counts};
    struct mnl_socket *socket = mnl_socket_open(NETLINK_ROUTE);
    struct nlmsghdr *message = mnl_nlmsg_put_header(room);
    ssize_t length;
    int code = MNL_CB_OK;
    (void)how;
    if (socket == NULL || mnl_socket_bind(socket, 0, MNL_SOCKET_AUTOPID) < 0) fail("no socket");
    message->nlmsg_type = list->request;
    message->nlmsg_flags = NLM_F_REQUEST | NLM_F_DUMP;
    message->nlmsg_seq = 1;
    *(uint8_t *)mnl_nlmsg_put_extra_header(message, list->header) = list->family;
    if (mnl_socket_sendto(socket, message, message->nlmsg_len) < 0) fail("the request is not sent");
    while (code > MNL_CB_STOP && (length = mnl_socket_recvfrom(socket, room, sizeof room)) > 0)
        code = mnl_cb_run(room, (size_t)length, 1, mnl_socket_get_portid(socket), add_message, &state);
    if (code != MNL_CB_STOP) fail("the list does not end");
    mnl_socket_close(socket);
}
