#define _GNU_SOURCE
#include "link.h"
#include <errno.h>
#include <linux/netlink.h>
#include <poll.h>
#include <stdlib.h>
#include <string.h>
#include <sys/eventfd.h>
#include <sys/socket.h>
#include <time.h>
#include <unistd.h>

/* The room for a received datagram. The kernel fills a dump's up to 32 KiB, and a message of its own may be longer. The
 * unused part takes no memory. */
#define ROOM (1u << 20)

/* The room for a padding. */
#define PADDING 3

static int32_t failed(struct link *link) {
    link->fault = errno;
    return NELI_LINK;
}

static int bind_to(int fd, uint32_t *port) {
    struct sockaddr_nl address = {.nl_family = AF_NETLINK};
    socklen_t size = sizeof address;
    if (bind(fd, (struct sockaddr *)&address, size) < 0) return -1;
    if (getsockname(fd, (struct sockaddr *)&address, &size) < 0) return -1;
    *port = address.nl_pid;
    return 0;
}

static int set_options(int fd, const uint32_t *groups, size_t count) {
    int one = 1;
    if (setsockopt(fd, SOL_NETLINK, NETLINK_PKTINFO, &one, sizeof one) < 0) return -1;
    /* An old kernel has no extended acknowledgements, and answers without. */
    (void)setsockopt(fd, SOL_NETLINK, NETLINK_EXT_ACK, &one, sizeof one);
    for (size_t i = 0; i < count; i++)
        if (setsockopt(fd, SOL_NETLINK, NETLINK_ADD_MEMBERSHIP, &groups[i], sizeof groups[i]) < 0) return -1;
    return 0;
}

int32_t link_open(struct link *link, int family, const uint32_t *groups, size_t count) {
    *link = (struct link){.fd = socket(AF_NETLINK, SOCK_RAW | SOCK_CLOEXEC, family), .stop = -1, .wait = -1};
    if (link->fd < 0 || bind_to(link->fd, &link->port) < 0 || set_options(link->fd, groups, count) < 0)
        return failed(link);
    link->stop = eventfd(0, EFD_CLOEXEC | EFD_NONBLOCK);
    return link->stop < 0 ? failed(link) : NELI_OK;
}

int32_t link_open_over(struct link *link, uint32_t port, const struct neli_transport *over) {
    *link = (struct link){.fd = -1, .stop = eventfd(0, EFD_CLOEXEC | EFD_NONBLOCK), .over = *over};
    link->port = port;
    link->wait = -1;
    return link->stop < 0 ? failed(link) : NELI_OK;
}

void link_close(struct link *link) {
    if (link->fd >= 0) close(link->fd);
    if (link->stop >= 0) close(link->stop);
    free(link->room);
    *link = (struct link){.fd = -1, .stop = -1};
}

int32_t link_set_strict(struct link *link) {
    int one = 1;
    if (setsockopt(link->fd, SOL_NETLINK, NETLINK_GET_STRICT_CHK, &one, sizeof one) < 0) return failed(link);
    return NELI_OK;
}

/* Sends a datagram: 0, or the number in errno.h. */
static int send_once(const struct link *link, const uint8_t *bytes, size_t length) {
    if (link->over.send != NULL) return link->over.send(link->over.state, bytes, length);
    return send(link->fd, bytes, length, MSG_DONTWAIT) < 0 ? errno : 0;
}

int32_t link_send(struct link *link, const uint8_t *bytes, size_t length) {
    do
        errno = send_once(link, bytes, length);
    while (errno == EINTR);
    link->is_full = errno == EAGAIN;
    if (link->is_full) return NELI_WAITS;
    return errno != 0 ? failed(link) : NELI_OK;
}

/* The group of a datagram, from the control message. */
static uint32_t group_of(struct msghdr *header) {
    for (struct cmsghdr *it = CMSG_FIRSTHDR(header); it != NULL; it = CMSG_NXTHDR(header, it)) {
        struct nl_pktinfo info;
        if (it->cmsg_level != SOL_NETLINK || it->cmsg_type != NETLINK_PKTINFO) continue;
        memcpy(&info, CMSG_DATA(it), sizeof info);
        return info.group;
    }
    return 0;
}

/* Whether the socket is in a group. */
static bool has_joined(const struct link *link, uint32_t group) {
    uint32_t words[64] = {0};
    socklen_t size = sizeof words;
    if (group == 0 || group > 32 * 64) return false;
    if (getsockopt(link->fd, SOL_NETLINK, NETLINK_LIST_MEMBERSHIPS, words, &size) < 0) return false;
    return words[(group - 1) / 32] >> (group - 1) % 32 & 1;
}

/* Receives the kernel's next datagram from the socket: 0, or the number in errno.h. */
static int receive(const struct link *link, struct neli_received *received) {
    union {
        struct cmsghdr aligned;
        uint8_t bytes[CMSG_SPACE(sizeof(struct nl_pktinfo))];
    } control;
    for (;;) {
        struct sockaddr_nl from = {0};
        struct iovec slice = {link->room, link->size - PADDING};
        struct msghdr header = {
            .msg_name = &from,
            .msg_namelen = sizeof from,
            .msg_iov = &slice,
            .msg_iovlen = 1,
            .msg_control = &control,
            .msg_controllen = sizeof control,
        };
        ssize_t length = recvmsg(link->fd, &header, MSG_TRUNC | MSG_DONTWAIT);
        if (length < 0 && errno != EINTR) return errno;
        if (length < 0 || from.nl_pid != 0) continue;
        *received = (struct neli_received){.length = (size_t)length, .group = group_of(&header)};
        received->is_joined = has_joined(link, received->group);
        return 0;
    }
}

static bool has_room(struct link *link, size_t size) {
    uint8_t *room = malloc(size);
    if (room == NULL) return false;
    free(link->room);
    link->room = room;
    link->size = size;
    return true;
}

/* The length of a datagram with the last padding, if a message is whole without it. */
static size_t completed(const struct link *link, size_t length) {
    struct neli_walk walk = {0, length};
    struct neli_message message;
    uint32_t stated;
    size_t end = (length + PADDING) & ~(size_t)PADDING;
    if (end == length) return length;
    while (neli_next_message(link->room, length, &walk, &message) == NELI_ITEM) continue;
    if (length - walk.place < sizeof(struct nlmsghdr)) return length;
    memcpy(&stated, link->room + walk.place, sizeof stated);
    if (stated < sizeof(struct nlmsghdr) || stated > length - walk.place || stated + PADDING < end - walk.place)
        return length;
    memset(link->room + length, 0, end - length);
    return end;
}

int32_t link_receive(struct link *link, struct neli_received *received) {
    const struct neli_transport *over = &link->over;
    *received = (struct neli_received){0};
    if (link->room == NULL && !has_room(link, ROOM + PADDING)) return NELI_MEMORY;
    errno = over->receive != NULL ? over->receive(over->state, link->room, link->size - PADDING, received)
                                  : receive(link, received);
    link->is_empty = errno == EAGAIN;
    if (link->is_empty || (over->receive != NULL && errno == EINPROGRESS)) return NELI_WAITS;
    if (errno != 0) return failed(link);
    if (received->length > link->size - PADDING) {
        (void)has_room(link, received->length + PADDING);
        errno = EMSGSIZE;
        return failed(link);
    }
    received->length = completed(link, received->length);
    return NELI_OK;
}

static int64_t milliseconds(void) {
    struct timespec time;
    clock_gettime(CLOCK_MONOTONIC, &time);
    return (int64_t)time.tv_sec * 1000 + time.tv_nsec / 1000000;
}

int64_t link_end_of_wait(const struct link *link) {
    return link->wait < 0 ? -1 : milliseconds() + link->wait;
}

static bool is_past(int64_t end) {
    return end >= 0 && milliseconds() >= end;
}

/* The milliseconds left, for `poll`. */
static int left_until(int64_t end) {
    if (end < 0) return -1;
    int64_t left = end - milliseconds();
    return left < 0 ? 0 : (int)left;
}

bool link_is_stopped(const struct link *link) {
    struct pollfd stop = {.fd = link->stop, .events = POLLIN};
    return poll(&stop, 1, 0) > 0;
}

/* Waits once: 0, or the number in errno.h. */
static int wait_once(const struct link *link, int left) {
    short events = link->is_full ? POLLIN | POLLOUT : POLLIN;
    struct pollfd both[] = {{.fd = link->fd, .events = events}, {.fd = link->stop, .events = POLLIN}};
    if (link->over.wait != NULL) return link_is_stopped(link) ? ECANCELED : link->over.wait(link->over.state, left);
    int found = poll(both, 2, left);
    if (found < 0) return errno;
    if (both[1].revents != 0) return ECANCELED;
    return found > 0 ? 0 : EAGAIN;
}

int32_t link_wait(struct link *link, int64_t end, bool has_come) {
    do {
        if (link->wait > 0 && is_past(end)) errno = EAGAIN;
        else if (has_come) errno = link_is_stopped(link) ? ECANCELED : 0;
        else errno = wait_once(link, left_until(end));
    } while (errno == EINTR && !link->ends_by_signals);
    return errno != 0 ? failed(link) : NELI_OK;
}

void link_stop(const struct link *link) {
    uint64_t one = 1;
    int before = errno;
    if (write(link->stop, &one, sizeof one) < 0) errno = before;
}
