/* The output of `list`, by libmnl: `host/test` compares them if libmnl is installed. */
#include <arpa/inet.h>
#include <libmnl/libmnl.h>
#include <linux/if_addr.h>
#include <linux/rtnetlink.h>
#include <net/if.h>
#include <stdio.h>
#include <stdlib.h>

static int print_link(const struct nlmsghdr *message, void *data) {
    const struct ifinfomsg *link = mnl_nlmsg_get_payload(message);
    const struct nlattr *attribute;
    const char *name = "";
    unsigned mtu = 0;
    (void)data;
    mnl_attr_for_each(attribute, message, sizeof *link) {
        if (mnl_attr_get_type(attribute) == IFLA_IFNAME) name = mnl_attr_get_str(attribute);
        if (mnl_attr_get_type(attribute) == IFLA_MTU) mtu = mnl_attr_get_u32(attribute);
    }
    printf("link %d %s mtu %u %s\n", link->ifi_index, name, mtu, link->ifi_flags & IFF_UP ? "up" : "down");
    return MNL_CB_OK;
}

static int print_address(const struct nlmsghdr *message, void *data) {
    const struct ifaddrmsg *address = mnl_nlmsg_get_payload(message);
    const struct nlattr *attribute;
    char text[INET_ADDRSTRLEN];
    (void)data;
    mnl_attr_for_each(attribute, message, sizeof *address) {
        if (mnl_attr_get_type(attribute) != IFA_LOCAL) continue;
        inet_ntop(AF_INET, mnl_attr_get_payload(attribute), text, sizeof text);
        printf("address %u %s/%u\n", address->ifa_index, text, address->ifa_prefixlen);
    }
    return MNL_CB_OK;
}

static void dump(struct mnl_socket *socket, uint16_t type, size_t size, unsigned char family, mnl_cb_t print) {
    static char room[65536];
    struct nlmsghdr *message = mnl_nlmsg_put_header(room);
    ssize_t length;
    message->nlmsg_type = type;
    message->nlmsg_flags = NLM_F_REQUEST | NLM_F_DUMP;
    *(unsigned char *)mnl_nlmsg_put_extra_header(message, size) = family;
    if (mnl_socket_sendto(socket, message, message->nlmsg_len) < 0) exit(1);
    while ((length = mnl_socket_recvfrom(socket, room, sizeof room)) > 0)
        if (mnl_cb_run(room, (size_t)length, 0, mnl_socket_get_portid(socket), print, NULL) <= MNL_CB_STOP) return;
}

int main(void) {
    struct mnl_socket *socket = mnl_socket_open(NETLINK_ROUTE);
    if (socket == NULL || mnl_socket_bind(socket, 0, MNL_SOCKET_AUTOPID) < 0) return 1;
    dump(socket, RTM_GETLINK, sizeof(struct ifinfomsg), AF_UNSPEC, print_link);
    dump(socket, RTM_GETADDR, sizeof(struct ifaddrmsg), AF_INET, print_address);
    mnl_socket_close(socket);
    return 0;
}
