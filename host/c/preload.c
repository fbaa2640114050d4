/* What `replay` and `record` load before the C library of a program (LD_PRELOAD), in place of its calls on sockets:
 * with $NELI_REPLAY its netlink sockets play that recording, and with $NELI_RECORD what passes over them is appended to
 * that file. Each process that the program starts plays from the beginning, or appends too.
 *
 * A socket that plays is one end of a pair, so that poll(2) waits at it: what comes next stands in the pair, each
 * datagram behind the number of its group. */
#define _GNU_SOURCE
#include "play.h"
#include <dlfcn.h>
#include <errno.h>
#include <fcntl.h>
#include <linux/netlink.h>
#include <pthread.h>
#include <stdio.h>
#include <stdlib.h>
#include <string.h>
#include <sys/mman.h>
#include <sys/socket.h>
#include <sys/stat.h>
#include <sys/uio.h>
#include <unistd.h>

#define SOCKETS 64
#define ROOM (1u << 20)
#define FIRST_PORT 1000u

/* A group of what came to one that the file does not state. */
#define SOME_GROUP 1u

/* A netlink socket of the program. */
struct netlink {
    int fd, other; /* the program's descriptor, and the other end of its pair */
    uint16_t protocol;
    uint32_t port;
    uint32_t groups[2]; /* those below 64 that it is in, a bit each */
    bool is_listening, wants_groups;
};

static struct netlink sockets[SOCKETS];
static size_t socket_count;
static struct play play;
static bool is_playing;
static int recorded = -1;
static uint8_t room[ROOM + sizeof(uint32_t)];
static pthread_mutex_t lock = PTHREAD_MUTEX_INITIALIZER;

#define REAL(name) ((__typeof__(&name))dlsym(RTLD_NEXT, #name))

static void not_begun(const char *file, const char *why) {
    fprintf(stderr, "%s: %s: %s\n", is_playing ? "replay" : "record", file, why);
    _exit(1);
}

static void open_played(const char *path) {
    struct stat about;
    int fd = open(path, O_RDONLY | O_CLOEXEC);
    if (fd < 0 || fstat(fd, &about) < 0) not_begun(path, strerror(errno));
    size_t size = (size_t)about.st_size;
    void *bytes = size > 0 ? mmap(NULL, size, PROT_READ, MAP_PRIVATE, fd, 0) : "";
    if (bytes == MAP_FAILED) not_begun(path, strerror(errno));
    const char *why = play_open(&play, bytes, size);
    if (why != NULL) not_begun(path, why);
    close(fd);
}

static void open_recorded(const char *path) {
    struct stat about;
    recorded = pcap_create(path, true);
    if (recorded < 0 || fstat(recorded, &about) < 0) not_begun(path, strerror(errno));
    if (about.st_size == 0 && !pcap_begin(recorded)) not_begun(path, strerror(errno));
}

/* Begins with the first netlink socket. */
static void begin(void) {
    const char *from = getenv("NELI_REPLAY"), *to = getenv("NELI_RECORD");
    is_playing = from != NULL;
    if (from != NULL) open_played(from);
    else if (to != NULL) open_recorded(to);
}

static struct netlink *socket_of(int fd) {
    for (size_t i = 0; i < socket_count; i++)
        if (sockets[i].fd == fd && fd >= 0) return &sockets[i];
    return NULL;
}

/* ---- What is played ---- */

/* Puts what comes next into the pair, as far as there is room. */
static void feed(struct netlink *it) {
    long at;
    int index = (int)(it - sockets);
    while ((at = play_next(&play, index, it->protocol, it->is_listening)) >= 0) {
        const struct pcap_frame *frame = &play.frames[at].frame;
        uint32_t group = frame->way != PCAP_GROUP ? 0 : frame->group != 0 ? frame->group : SOME_GROUP;
        struct iovec parts[] = {{&group, sizeof group}, {(void *)(uintptr_t)frame->bytes, frame->length}};
        struct msghdr header = {.msg_iov = parts, .msg_iovlen = 2};
        uint8_t *bytes = malloc(frame->length + 1);
        if (bytes == NULL) return;
        parts[1].iov_base = bytes;
        play_take(&play, (size_t)at, it->port, bytes);
        ssize_t sent = REAL(sendmsg)(it->other, &header, MSG_DONTWAIT | MSG_NOSIGNAL);
        free(bytes);
        if (sent < 0) {
            play.frames[at].is_past = false;
            return;
        }
    }
    if (play_is_over(&play, it->protocol)) shutdown(it->other, SHUT_WR);
}

/* Gives a request to the recording. */
static ssize_t ask(struct netlink *it, const uint8_t *bytes, size_t length) {
    long differs = play_send(&play, (int)(it - sockets), it->protocol, bytes, length);
    if (differs < 0) {
        feed(it);
        return (ssize_t)length;
    }
    if ((size_t)differs == length) fputs("replay: the recording has no such request any more\n", stderr);
    else fprintf(stderr, "replay: the request differs at byte %ld from the one that the recording has next\n", differs);
    errno = EPROTO;
    return -1;
}

/* What a receive gives: from whom, to which group, and how many bytes there were. */
struct received {
    struct sockaddr_nl from;
    uint32_t group;
    ssize_t length;
};

/* Takes the next datagram out of the pair into `room`. */
static struct received take(struct netlink *it, int flags) {
    struct received found = {.from = {.nl_family = AF_NETLINK}};
    int own = (flags & MSG_PEEK) | MSG_DONTWAIT;
    bool waits = (flags & MSG_DONTWAIT) == 0 && (fcntl(it->fd, F_GETFL) & O_NONBLOCK) == 0;
    feed(it);
    ssize_t length = REAL(recv)(it->fd, room, sizeof room, own);
    if (length >= (ssize_t)sizeof found.group) {
        memcpy(&found.group, room, sizeof found.group);
        found.length = length - (ssize_t)sizeof found.group;
        if (found.group > 0 && found.group <= 32) found.from.nl_groups = 1u << (found.group - 1);
        if ((flags & MSG_PEEK) == 0) feed(it);
        return found;
    }
    /* Nothing more comes: what is left is for requests that were not sent. */
    if (length >= 0 || (errno == EAGAIN && waits)) errno = ECONNRESET;
    found.length = -1;
    return found;
}

/* Gives the caller what it has room for, as recvmsg(2) does. */
static ssize_t give(const struct netlink *it, struct msghdr *header, const struct received *found, int flags) {
    const uint8_t *bytes = room + sizeof found->group;
    size_t length = (size_t)found->length, given = 0;
    for (size_t i = 0; i < header->msg_iovlen && given < length; i++) {
        size_t part = header->msg_iov[i].iov_len < length - given ? header->msg_iov[i].iov_len : length - given;
        memcpy(header->msg_iov[i].iov_base, bytes + given, part);
        given += part;
    }
    header->msg_flags = given < length ? MSG_TRUNC : 0;
    if (header->msg_name != NULL) {
        socklen_t size = header->msg_namelen < sizeof found->from ? header->msg_namelen : sizeof found->from;
        memcpy(header->msg_name, &found->from, size);
        header->msg_namelen = sizeof found->from;
    }
    struct nl_pktinfo info = {found->group};
    struct cmsghdr *control = it->wants_groups ? CMSG_FIRSTHDR(header) : NULL;
    if (control != NULL && header->msg_controllen >= CMSG_SPACE(sizeof info)) {
        *control = (struct cmsghdr){CMSG_LEN(sizeof info), SOL_NETLINK, NETLINK_PKTINFO};
        memcpy(CMSG_DATA(control), &info, sizeof info);
        header->msg_controllen = CMSG_SPACE(sizeof info);
    } else {
        header->msg_controllen = 0;
    }
    return (ssize_t)((flags & MSG_TRUNC) != 0 ? length : given);
}

/* ---- What is recorded ---- */

static void keep(const struct netlink *it, enum pcap_way way, uint32_t group, const uint8_t *bytes, size_t length) {
    struct pcap_frame frame = {way, group, it->port, it->protocol, bytes, length};
    if (!pcap_put(recorded, &frame)) fprintf(stderr, "record: %s\n", strerror(errno));
}

/* The group of a datagram: by the control message, if the program has it, or by the address, which states none above
 * 32; else 0. */
static uint32_t group_of(struct msghdr *header, const struct sockaddr_nl *from) {
    for (struct cmsghdr *it = CMSG_FIRSTHDR(header); it != NULL; it = CMSG_NXTHDR(header, it)) {
        struct nl_pktinfo info;
        if (it->cmsg_level != SOL_NETLINK || it->cmsg_type != NETLINK_PKTINFO) continue;
        if (it->cmsg_len < CMSG_LEN(sizeof info)) continue;
        memcpy(&info, CMSG_DATA(it), sizeof info);
        return info.group;
    }
    return (uint32_t)__builtin_ffs((int)from->nl_groups);
}

/* Keeps what a receive has given, where the caller had room for all of it. */
static void keep_received(const struct netlink *it, struct msghdr *header, const struct sockaddr_nl *from,
                          size_t length) {
    size_t kept = 0;
    for (size_t i = 0; i < header->msg_iovlen && kept < length; i++) {
        size_t part = header->msg_iov[i].iov_len < length - kept ? header->msg_iov[i].iov_len : length - kept;
        if (kept + part > ROOM) break;
        memcpy(room + kept, header->msg_iov[i].iov_base, part);
        kept += part;
    }
    if (kept < length || (header->msg_flags & MSG_TRUNC) != 0) {
        fputs("record: a datagram was cut by the program, and is not kept\n", stderr);
        return;
    }
    uint32_t group = group_of(header, from);
    keep(it, group != 0 ? PCAP_GROUP : PCAP_RECEIVED, group, room, length);
}

/* ---- The calls of the C library ---- */

static ssize_t receive(struct netlink *it, struct msghdr *header, int flags) {
    struct sockaddr_nl from = {0};
    void *name = header->msg_name;
    socklen_t size = name != NULL ? header->msg_namelen : 0;
    if (is_playing) {
        pthread_mutex_lock(&lock);
        struct received found = take(it, flags);
        ssize_t length = found.length < 0 ? -1 : give(it, header, &found, flags);
        pthread_mutex_unlock(&lock);
        return length;
    }
    header->msg_name = &from;
    header->msg_namelen = sizeof from;
    ssize_t length = REAL(recvmsg)(it->fd, header, flags);
    int before = errno;
    pthread_mutex_lock(&lock);
    if (length > 0 && (flags & MSG_PEEK) == 0) keep_received(it, header, &from, (size_t)length);
    pthread_mutex_unlock(&lock);
    header->msg_name = name;
    if (length < 0 || name == NULL) header->msg_namelen = size;
    else memcpy(name, &from, size < header->msg_namelen ? size : header->msg_namelen);
    errno = before;
    return length;
}

static ssize_t transmit(struct netlink *it, const struct msghdr *header, int flags) {
    size_t length = 0;
    ssize_t sent = is_playing ? 0 : REAL(sendmsg)(it->fd, header, flags);
    if (sent < 0) return sent;
    struct sockaddr_nl own = {0};
    socklen_t size = sizeof own;
    pthread_mutex_lock(&lock);
    if (!is_playing && REAL(getsockname)(it->fd, (struct sockaddr *)&own, &size) == 0) it->port = own.nl_pid;
    for (size_t i = 0; i < header->msg_iovlen; i++) {
        size_t part = header->msg_iov[i].iov_len;
        if (part > ROOM - length) part = ROOM - length;
        if (part > 0) memcpy(room + length, header->msg_iov[i].iov_base, part);
        length += part;
    }
    if (is_playing) sent = ask(it, room, length);
    else keep(it, PCAP_SENT, 0, room, length);
    pthread_mutex_unlock(&lock);
    return sent;
}

int socket(int domain, int type, int protocol) {
    static pthread_once_t once = PTHREAD_ONCE_INIT;
    int both[2] = {-1, -1}, large = 1 << 22;
    if (domain == AF_NETLINK) pthread_once(&once, begin);
    if (domain != AF_NETLINK || (!is_playing && recorded < 0)) return REAL(socket)(domain, type, protocol);
    if (is_playing) {
        int kind = SOCK_SEQPACKET | (type & (SOCK_CLOEXEC | SOCK_NONBLOCK));
        if (socketpair(AF_UNIX, kind, 0, both) < 0) return -1;
        fcntl(both[1], F_SETFD, FD_CLOEXEC);
        setsockopt(both[1], SOL_SOCKET, SO_SNDBUF, &large, sizeof large);
    } else if ((both[0] = REAL(socket)(domain, type, protocol)) < 0) {
        return -1;
    }
    pthread_mutex_lock(&lock);
    struct netlink *it = NULL;
    for (size_t i = 0; i < SOCKETS && it == NULL; i++)
        if (i >= socket_count || sockets[i].fd < 0) it = &sockets[i];
    if (it != NULL) {
        uint32_t port = FIRST_PORT + (uint32_t)(it - sockets);
        *it = (struct netlink){both[0], both[1], (uint16_t)protocol, port, {0, 0}, false, false};
        if (it == sockets + socket_count) socket_count++;
    }
    pthread_mutex_unlock(&lock);
    if (it != NULL) return both[0];
    REAL(close)(both[0]);
    if (is_playing) REAL(close)(both[1]);
    errno = EMFILE;
    return -1;
}

int close(int fd) {
    pthread_mutex_lock(&lock);
    struct netlink *it = socket_of(fd);
    int other = it != NULL ? it->other : -1;
    if (it != NULL) it->fd = it->other = -1;
    pthread_mutex_unlock(&lock);
    if (other >= 0) REAL(close)(other);
    return REAL(close)(fd);
}

static void join(struct netlink *it, uint32_t group, bool is_member) {
    if (group > 0 && group <= 64) {
        uint32_t bit = 1u << ((group - 1) % 32), *word = &it->groups[(group - 1) / 32];
        *word = is_member ? *word | bit : *word & ~bit;
    }
    it->is_listening = is_member || (it->groups[0] | it->groups[1]) != 0;
    feed(it);
}

int bind(int fd, const struct sockaddr *address, socklen_t size) {
    struct netlink *it = socket_of(fd);
    struct sockaddr_nl own;
    if (it == NULL || !is_playing) return REAL(bind)(fd, address, size);
    if (size < sizeof own) {
        errno = EINVAL;
        return -1;
    }
    memcpy(&own, address, sizeof own);
    pthread_mutex_lock(&lock);
    if (own.nl_pid != 0) it->port = own.nl_pid;
    for (uint32_t group = 1; group <= 32; group++)
        if ((own.nl_groups >> (group - 1) & 1) != 0) join(it, group, true);
    pthread_mutex_unlock(&lock);
    return 0;
}

int connect(int fd, const struct sockaddr *address, socklen_t size) {
    struct netlink *it = socket_of(fd);
    return it != NULL && is_playing ? 0 : REAL(connect)(fd, address, size);
}

int getsockname(int fd, struct sockaddr *address, socklen_t *size) {
    struct netlink *it = socket_of(fd);
    if (it == NULL || !is_playing) return REAL(getsockname)(fd, address, size);
    struct sockaddr_nl own = {.nl_family = AF_NETLINK, .nl_pid = it->port, .nl_groups = it->groups[0]};
    memcpy(address, &own, *size < sizeof own ? *size : sizeof own);
    *size = sizeof own;
    return 0;
}

int setsockopt(int fd, int level, int name, const void *value, socklen_t size) {
    struct netlink *it = socket_of(fd);
    int number = 0;
    if (it == NULL || !is_playing || level != SOL_NETLINK) return REAL(setsockopt)(fd, level, name, value, size);
    if (size >= sizeof number) memcpy(&number, value, sizeof number);
    pthread_mutex_lock(&lock);
    if (name == NETLINK_PKTINFO) it->wants_groups = number != 0;
    if (name == NETLINK_ADD_MEMBERSHIP || name == NETLINK_DROP_MEMBERSHIP)
        join(it, (uint32_t)number, name == NETLINK_ADD_MEMBERSHIP);
    pthread_mutex_unlock(&lock);
    return 0;
}

int getsockopt(int fd, int level, int name, void *value, socklen_t *size) {
    struct netlink *it = socket_of(fd);
    if (it == NULL || !is_playing) return REAL(getsockopt)(fd, level, name, value, size);
    if (level == SOL_NETLINK && name == NETLINK_LIST_MEMBERSHIPS) {
        memcpy(value, it->groups, *size < sizeof it->groups ? *size : sizeof it->groups);
        *size = sizeof it->groups;
        return 0;
    }
    int number = level == SOL_NETLINK ? 0 : name == SO_DOMAIN ? AF_NETLINK : name == SO_PROTOCOL ? it->protocol : -1;
    if (number < 0) return REAL(getsockopt)(fd, level, name, value, size);
    memcpy(value, &number, *size < sizeof number ? *size : sizeof number);
    *size = sizeof number;
    return 0;
}

ssize_t sendmsg(int fd, const struct msghdr *header, int flags) {
    struct netlink *it = socket_of(fd);
    return it != NULL ? transmit(it, header, flags) : REAL(sendmsg)(fd, header, flags);
}

ssize_t sendto(int fd, const void *bytes, size_t length, int flags, const struct sockaddr *to, socklen_t size) {
    struct netlink *it = socket_of(fd);
    struct iovec part = {(void *)(uintptr_t)bytes, length};
    struct msghdr header = {.msg_name = (void *)(uintptr_t)to, .msg_namelen = size, .msg_iov = &part, .msg_iovlen = 1};
    return it != NULL ? transmit(it, &header, flags) : REAL(sendto)(fd, bytes, length, flags, to, size);
}

ssize_t send(int fd, const void *bytes, size_t length, int flags) {
    return socket_of(fd) != NULL ? sendto(fd, bytes, length, flags, NULL, 0) : REAL(send)(fd, bytes, length, flags);
}

ssize_t write(int fd, const void *bytes, size_t length) {
    return socket_of(fd) != NULL ? sendto(fd, bytes, length, 0, NULL, 0) : REAL(write)(fd, bytes, length);
}

ssize_t recvmsg(int fd, struct msghdr *header, int flags) {
    struct netlink *it = socket_of(fd);
    return it != NULL ? receive(it, header, flags) : REAL(recvmsg)(fd, header, flags);
}

ssize_t recvfrom(int fd, void *bytes, size_t length, int flags, struct sockaddr *from, socklen_t *size) {
    struct netlink *it = socket_of(fd);
    struct iovec part = {bytes, length};
    struct msghdr header = {.msg_name = from, .msg_iov = &part, .msg_iovlen = 1};
    if (it == NULL) return REAL(recvfrom)(fd, bytes, length, flags, from, size);
    if (size != NULL) header.msg_namelen = *size;
    ssize_t received = receive(it, &header, flags);
    if (size != NULL) *size = header.msg_namelen;
    return received;
}

ssize_t recv(int fd, void *bytes, size_t length, int flags) {
    if (socket_of(fd) == NULL) return REAL(recv)(fd, bytes, length, flags);
    return recvfrom(fd, bytes, length, flags, NULL, NULL);
}

ssize_t read(int fd, void *bytes, size_t length) {
    return socket_of(fd) != NULL ? recvfrom(fd, bytes, length, 0, NULL, NULL) : REAL(read)(fd, bytes, length);
}
