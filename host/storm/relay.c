/* `relay FD SEED` passes requests from a socket pair on to the kernel, and the kernel's datagrams back: by the seed it
 * loses datagrams, with and without the fault that the kernel would report, repeats them, and reorders them; and it
 * changes a link now and then, so that there are notifications. After so many requests it passes on all unchanged.
 * A datagram of one byte asks it to pass on all that it has, and then one byte.
 * `shim.c` defines the form of its output. */
#define _GNU_SOURCE
#include <errno.h>
#include <linux/if_link.h>
#include <linux/netlink.h>
#include <linux/rtnetlink.h>
#include <poll.h>
#include <stdbool.h>
#include <stdint.h>
#include <stdlib.h>
#include <string.h>
#include <sys/socket.h>
#include <unistd.h>

#define STORM 60
#define LATER 8

/* A datagram that is passed on later: after so many others. */
struct later {
    uint8_t *bytes;
    size_t length;
    unsigned after;
};

static int pair, kernel, noise;
static uint64_t state;
static unsigned requests, mtu = 1000;
static struct later later[LATER];

static unsigned below(unsigned limit) {
    state ^= state << 13;
    state ^= state >> 7;
    state ^= state << 17;
    return (unsigned)(state >> 33) % limit;
}

static int netlink(uint32_t group, uint32_t *port) {
    struct sockaddr_nl address = {.nl_family = AF_NETLINK};
    socklen_t size = sizeof address;
    int fd = socket(AF_NETLINK, SOCK_RAW, NETLINK_ROUTE), one = 1, large = 1 << 22;
    if (fd < 0 || bind(fd, (struct sockaddr *)&address, size) < 0) exit(1);
    setsockopt(fd, SOL_NETLINK, NETLINK_PKTINFO, &one, sizeof one);
    setsockopt(fd, SOL_NETLINK, NETLINK_EXT_ACK, &one, sizeof one);
    setsockopt(fd, SOL_SOCKET, SO_RCVBUFFORCE, &large, sizeof large);
    if (group != 0) setsockopt(fd, SOL_NETLINK, NETLINK_ADD_MEMBERSHIP, &group, sizeof group);
    getsockname(fd, (struct sockaddr *)&address, &size);
    *port = address.nl_pid;
    return fd;
}

/* Sets the MTU of the loopback link to the next number. */
static void make_noise(void) {
    struct {
        struct nlmsghdr head;
        struct ifinfomsg link;
        uint16_t length, type;
        uint32_t mtu;
    } change = {
        {sizeof change, RTM_SETLINK, NLM_F_REQUEST, 0, 0}, {.ifi_index = 1}, 8, IFLA_MTU, mtu++,
    };
    if (send(noise, &change, sizeof change, 0) < 0) exit(1);
}

static void pass(const uint8_t *bytes, size_t length) {
    if (send(pair, bytes, length, MSG_NOSIGNAL) < 0) exit(0);
}

static void pass_fault(void) {
    uint32_t fault[] = {UINT32_MAX, ENOBUFS};
    pass((uint8_t *)fault, sizeof fault);
}

/* Passes on those whose turn has come, or all. */
static void pass_later(bool all) {
    for (size_t i = 0; i < LATER; i++) {
        if (later[i].bytes == NULL || (!all && --later[i].after > 0)) continue;
        pass(later[i].bytes, later[i].length);
        free(later[i].bytes);
        later[i].bytes = NULL;
    }
}

static bool is_put_off(const uint8_t *bytes, size_t length) {
    for (size_t i = 0; i < LATER; i++) {
        if (later[i].bytes != NULL) continue;
        later[i] = (struct later){malloc(length), length, 1 + below(4)};
        memcpy(later[i].bytes, bytes, length);
        return true;
    }
    return false;
}

/* The fate of a datagram of the kernel. */
static void relay(const uint8_t *bytes, size_t length) {
    unsigned fate = requests < STORM ? below(100) : 99;
    if (fate < 6) return pass_fault();
    if (fate < 12) return;
    if (fate < 24 && is_put_off(bytes, length)) return;
    pass(bytes, length);
    if (fate < 36) pass(bytes, length);
    pass_later(requests >= STORM);
}

/* Relays the kernel's next datagram; false if there is none. */
static bool from_kernel(void) {
    static uint8_t room[1 << 17];
    union {
        struct cmsghdr aligned;
        uint8_t bytes[CMSG_SPACE(sizeof(struct nl_pktinfo))];
    } control;
    struct iovec slice = {room + 4, sizeof room - 4};
    struct msghdr header = {.msg_iov = &slice, .msg_iovlen = 1, .msg_control = &control};
    header.msg_controllen = sizeof control;
    ssize_t length = recvmsg(kernel, &header, MSG_DONTWAIT);
    if (length < 0 && errno == EAGAIN) return false;
    if (length < 0) return pass_fault(), true;
    struct cmsghdr *it = CMSG_FIRSTHDR(&header);
    memset(room, 0, 4);
    if (it != NULL && it->cmsg_type == NETLINK_PKTINFO) memcpy(room, CMSG_DATA(it), 4);
    relay(room, (size_t)length + 4);
    return true;
}

static void from_program(void) {
    static uint8_t room[1 << 17];
    ssize_t length = recv(pair, room, sizeof room, 0);
    if (length <= 0) exit(0);
    if (length == 1) {
        while (from_kernel()) continue;
        pass_later(true);
        pass(room, 1);
        return;
    }
    requests++;
    for (unsigned i = below(4); i > 0 && below(3) == 0; i--) make_noise();
    if (send(kernel, room, (size_t)length, 0) < 0) exit(1);
}

int main(int argc, char **argv) {
    uint32_t port, other;
    if (argc != 3) return 2;
    pair = atoi(argv[1]);
    state = strtoull(argv[2], NULL, 10) * 0x9e3779b97f4a7c15u + 1;
    kernel = netlink(RTNLGRP_LINK, &port);
    noise = netlink(0, &other);
    pass((uint8_t *)&port, sizeof port);
    for (;;) {
        struct pollfd both[] = {{.fd = pair, .events = POLLIN}, {.fd = kernel, .events = POLLIN}};
        if (poll(both, 2, 3) == 0) pass_later(true);
        if (both[1].revents != 0) (void)from_kernel();
        if (both[0].revents != 0) from_program();
    }
}
