/* Puts a relay between a program and the kernel: loaded before the C library (LD_PRELOAD), it makes the program's first
 * netlink socket one end of a socket pair, whose other end has the program `$NELI_RELAY` by the seed `$NELI_SEED`. The
 * datagrams that the program sends and receives are written into the file `$NELI_LOG`, as they pass. On the pair a
 * datagram begins with four bytes: its group, or FAULT, and then four bytes with the number in errno.h. In the file
 * each record begins with its kind (1 sent, 2 given, 3 a fault, 4 nothing is left), its group or number, its length.
 *
 * The kernel has answered when a request is sent. So before the program is told that nothing is left the relay is asked
 * whether that is so, by a datagram of one byte; it passes on all that it has, and then one byte. */
#define _GNU_SOURCE
#include <dlfcn.h>
#include <errno.h>
#include <fcntl.h>
#include <linux/netlink.h>
#include <pthread.h>
#include <signal.h>
#include <stdbool.h>
#include <stdint.h>
#include <stdio.h>
#include <stdlib.h>
#include <string.h>
#include <sys/socket.h>
#include <unistd.h>

#define FAULT UINT32_MAX
#define JOINED 1u

static int relayed = -1, written = -1;
static bool is_asked; /* whether the relay was asked, and has not answered */
static bool has_sent; /* whether the program has sent something since */
static uint32_t port;
static pthread_mutex_t lock = PTHREAD_MUTEX_INITIALIZER;

#define REAL(name) ((__typeof__(&name))dlsym(RTLD_NEXT, #name))

static void note(uint32_t kind, uint32_t what, const void *bytes, uint32_t length) {
    uint32_t head[] = {kind, what, length};
    if (write(written, head, sizeof head) < 0 || (length > 0 && write(written, bytes, length) < 0)) abort();
}

static int start_relay(void) {
    int both[2], large = 1 << 22;
    char number[16];
    if (socketpair(AF_UNIX, SOCK_SEQPACKET, 0, both) < 0) return -1;
    setsockopt(both[1], SOL_SOCKET, SO_SNDBUF, &large, sizeof large);
    snprintf(number, sizeof number, "%d", both[1]);
    written = open(getenv("NELI_LOG"), O_WRONLY | O_CREAT | O_TRUNC | O_CLOEXEC, 0600);
    if (written < 0) return -1;
    signal(SIGCHLD, SIG_IGN);
    if (fork() == 0) {
        close(both[0]);
        unsetenv("LD_PRELOAD");
        execl(getenv("NELI_RELAY"), "relay", number, getenv("NELI_SEED"), NULL);
        _exit(127);
    }
    close(both[1]);
    fcntl(both[0], F_SETFD, FD_CLOEXEC);
    if (recv(both[0], &port, sizeof port, 0) != sizeof port) return -1;
    return relayed = both[0];
}

int socket(int domain, int type, int protocol) {
    if (domain == AF_NETLINK && relayed < 0 && getenv("NELI_RELAY") != NULL) return start_relay();
    return REAL(socket)(domain, type, protocol);
}

int bind(int fd, const struct sockaddr *address, socklen_t size) {
    return fd == relayed ? 0 : REAL(bind)(fd, address, size);
}

int getsockname(int fd, struct sockaddr *address, socklen_t *size) {
    struct sockaddr_nl own = {.nl_family = AF_NETLINK, .nl_pid = port};
    if (fd != relayed) return REAL(getsockname)(fd, address, size);
    memcpy(address, &own, sizeof own);
    return 0;
}

int setsockopt(int fd, int level, int name, const void *value, socklen_t size) {
    return fd == relayed && level == SOL_NETLINK ? 0 : REAL(setsockopt)(fd, level, name, value, size);
}

int getsockopt(int fd, int level, int name, void *value, socklen_t *size) {
    uint32_t groups = 1u << (JOINED - 1);
    if (fd != relayed || level != SOL_NETLINK) return REAL(getsockopt)(fd, level, name, value, size);
    if (name == NETLINK_LIST_MEMBERSHIPS && *size >= sizeof groups) memcpy(value, &groups, sizeof groups);
    *size = sizeof groups;
    return 0;
}

static ssize_t sent(int fd, const void *bytes, size_t length, int flags) {
    pthread_mutex_lock(&lock);
    note(1, 0, bytes, (uint32_t)length);
    has_sent = true;
    ssize_t result = REAL(send)(fd, bytes, length, flags & ~MSG_DONTWAIT);
    pthread_mutex_unlock(&lock);
    return result;
}

ssize_t send(int fd, const void *bytes, size_t length, int flags) {
    return fd == relayed ? sent(fd, bytes, length, flags) : REAL(send)(fd, bytes, length, flags);
}

ssize_t sendto(int fd, const void *bytes, size_t length, int flags, const struct sockaddr *to, socklen_t size) {
    return fd == relayed ? sent(fd, bytes, length, flags) : REAL(sendto)(fd, bytes, length, flags, to, size);
}

/* Returns a datagram as the kernel does. */
static ssize_t give(struct msghdr *header, uint32_t group, const uint8_t *bytes, size_t length) {
    struct sockaddr_nl kernel = {.nl_family = AF_NETLINK};
    struct nl_pktinfo info = {group};
    size_t room = header->msg_iov[0].iov_len;
    memcpy(header->msg_iov[0].iov_base, bytes, length < room ? length : room);
    memcpy(header->msg_name, &kernel, sizeof kernel);
    struct cmsghdr *control = CMSG_FIRSTHDR(header);
    *control = (struct cmsghdr){CMSG_LEN(sizeof info), SOL_NETLINK, NETLINK_PKTINFO};
    memcpy(CMSG_DATA(control), &info, sizeof info);
    header->msg_controllen = CMSG_SPACE(sizeof info);
    return (ssize_t)length;
}

/* Receives from the relay; EAGAIN once the relay has said that nothing is left of what was sent. */
static ssize_t receive(uint8_t *room, size_t size, int flags) {
    for (;;) {
        ssize_t length = REAL(recv)(relayed, room, size, is_asked ? 0 : flags & MSG_DONTWAIT);
        bool is_empty = length < 0 && errno == EAGAIN;
        if (!is_empty && length != 1) return length;
        if (length == 1 && !has_sent) {
            is_asked = false;
            note(4, 0, NULL, 0);
            errno = EAGAIN;
            return -1;
        }
        has_sent = false;
        is_asked = true;
        if (REAL(send)(relayed, "", 1, MSG_NOSIGNAL) < 0) return -1;
    }
}

ssize_t recvmsg(int fd, struct msghdr *header, int flags) {
    static uint8_t room[1 << 17];
    uint32_t head[2];
    if (fd != relayed) return REAL(recvmsg)(fd, header, flags);
    pthread_mutex_lock(&lock);
    ssize_t length = receive(room, sizeof room, flags);
    if (length >= (ssize_t)sizeof head) memcpy(head, room, sizeof head);
    if (length >= 0 && length < 4) errno = ECONNRESET, length = -1;
    else if (length >= 0 && head[0] == FAULT) {
        note(3, head[1], NULL, 0);
        errno = (int)head[1];
        length = -1;
    } else if (length >= 0) {
        note(2, head[0], room + 4, (uint32_t)length - 4);
        length = give(header, head[0], room + 4, (size_t)length - 4);
    }
    pthread_mutex_unlock(&lock);
    return length;
}
