/* `monitor [-j] [-c COUNT] [-b BYTES] FAMILY..` prints what comes to all multicast groups of these families by name, each
 * message with the time: as lines of text, the first of which is
 * `2026-11-28T00:41:05.123456Z RTM_NEWADDR length 76 flags 0 seq 0 port 0`; with -j as a line of JSON, whose first member
 * is `"time"`. A family is `route`, or one of generic netlink by its name.
 *
 * Where some were lost it says so, as `lost some: No buffer space available`, with -j as a member `"lost"`, and goes on.
 * It ends after COUNT messages, or by SIGINT or SIGTERM, also while nobody reads what it prints: with status 0 where
 * all are printed, and 4 where not. -b sets the size of the socket's buffer: 4 MiB where the system lets it. */
#define _GNU_SOURCE
#include "groups.h"
#include "request.h"
#include <errno.h>
#include <limits.h>
#include <linux/genetlink.h>
#include <linux/netlink.h>
#include <linux/rtnetlink.h>
#include <poll.h>
#include <signal.h>
#include <stdio.h>
#include <stdlib.h>
#include <string.h>
#include <sys/socket.h>
#include <time.h>
#include <unistd.h>

static struct neli_tables tables = NELI_TABLES_CLOSED;
static bool is_json;
static char *text; /* what a message is printed into */
static size_t room;
static struct neli_host *hosts[2]; /* of routing, and of generic netlink, where they are asked for */
static unsigned long left = -1ul;
static enum status status = STATUS_COMPLETE;
static volatile sig_atomic_t is_stopped;
static sigset_t waiting; /* the signals that stay blocked while it waits */
static FILE *out;        /* the standard output */
static const char *program = "monitor"; /* what messages about this program begin with: the name that it was run by */

/* The last part of the path that it was run by. */
static void name_program(const char *path) {
    const char *slash = strrchr(path, '/');
    const char *name = slash != NULL ? slash + 1 : path;
    if (*name != '\0') program = name;
}

static void stop(int number) {
    (void)number;
    is_stopped = 1;
}

static void not_begun(const char *what, const char *why) {
    fprintf(stderr, "%s: %s: %s\n", program, what, why);
    exit(STATUS_NOT_BEGUN);
}

/* Writes to the standard output. A signal ends a wait for its reader, and from then on there is none. A pipe that has
 * room takes PIPE_BUF bytes at once. */
static ssize_t put_out(void *none, const char *bytes, size_t length) {
    static const struct timespec no_time;
    struct pollfd watched = {.fd = STDOUT_FILENO, .events = POLLOUT};
    size_t at = 0;
    (void)none;
    while (at < length) {
        int found = ppoll(&watched, 1, is_stopped ? &no_time : NULL, &waiting);
        if (found < 0 && errno == EINTR) continue;
        size_t part = length - at < PIPE_BUF ? length - at : PIPE_BUF;
        ssize_t written = found > 0 ? write(STDOUT_FILENO, bytes + at, part) : -1;
        if (written < 0) {
            status = STATUS_LOST;
            break;
        }
        at += (size_t)written;
    }
    return (ssize_t)at;
}

/* Opens the socket of a protocol, if it is not open. */
static struct neli_host *open_host(struct neli_host **host, int protocol, int size) {
    if (*host != NULL) return *host;
    open_or_fail(host, protocol, NULL, 0);
    neli_host_set_wait(*host, 1000);
    int fd = neli_host_fd(*host);
    if (setsockopt(fd, SOL_SOCKET, SO_RCVBUFFORCE, &size, sizeof size) < 0)
        setsockopt(fd, SOL_SOCKET, SO_RCVBUF, &size, sizeof size);
    return *host;
}

static bool has_joined(const struct neli_host *host, uint32_t group) {
    return setsockopt(neli_host_fd(host), SOL_NETLINK, NETLINK_ADD_MEMBERSHIP, &group, sizeof group) == 0;
}

/* Joins all groups of routing that the kernel has. */
static void join_route(int size) {
    struct neli_host *host = open_host(&hosts[0], NETLINK_ROUTE, size);
    if (!has_joined(host, RTNLGRP_LINK)) not_begun("route", strerror(errno));
    for (uint32_t group = RTNLGRP_LINK + 1; group <= RTNLGRP_MAX; group++) (void)has_joined(host, group);
}

/* Joins the groups of a family, which the controller lists. */
static void join_groups(const struct neli_host *host, const struct neli_attribute *list, const char *family) {
    struct neli_walk groups, fields;
    struct neli_attribute group, found;
    if (neli_attributes_in(list, &groups) != NELI_OK) return;
    while (neli_next_attribute(neli_host_item(host), neli_host_item_length(host), &groups, &group) == NELI_ITEM) {
        uint32_t number;
        if (neli_attributes_in(&group, &fields) == NELI_OK &&
            neli_host_find(host, &fields, CTRL_ATTR_MCAST_GRP_ID, &found) &&
            neli_get_u32(neli_host_item(host) + found.payload, found.payload_length, 0, &number) == NELI_OK &&
            !has_joined(host, number)) not_begun(family, strerror(errno));
    }
}

/* Takes what the controller says of a family. */
static void take_family(const struct neli_host *host, const struct neli_message *message, const char *name) {
    const uint8_t *bytes = neli_host_item(host);
    struct neli_walk walk;
    struct neli_attribute found;
    if (neli_attributes_of(message, sizeof(struct genlmsghdr), &walk) != NELI_OK) return;
    if (neli_tables_learn_from(&tables, NETLINK_GENERIC, bytes, neli_host_item_length(host), message) != NELI_OK)
        not_begun(name, "no memory");
    if (!neli_host_find(host, &walk, CTRL_ATTR_MCAST_GROUPS, &found)) not_begun(name, "it has no groups");
    join_groups(host, &found, name);
}

/* Joins all groups of a family of generic netlink. */
static void join_generic(const char *name, int size) {
    struct neli_host *host = open_host(&hosts[1], NETLINK_GENERIC, size);
    struct genlmsghdr ask = {.cmd = CTRL_CMD_GETFAMILY, .version = 2};
    struct body body = {0};
    struct neli_message message;
    size_t handle;
    if (strlen(name) >= GENL_NAMSIZ) not_begun(name, "no such family");
    put(&body, &ask, sizeof ask);
    put_text(&body, CTRL_ATTR_FAMILY_NAME, name);
    int32_t code = neli_host_send(host, GENL_ID_CTRL, NLM_F_ACK, body.bytes, body.writer.end, &handle);
    if (code != NELI_OK) fail(host, name, code, NULL);
    while ((code = neli_host_next(host, handle, &message)) == NELI_ITEM)
        if (message.type == GENL_ID_CTRL) take_family(host, &message, name);
    if (code != NELI_END) fail(host, name, code, &message);
    neli_host_close_request(host, handle);
}

static void print_time(void) {
    struct timespec now;
    struct tm parts;
    char date[32];
    clock_gettime(CLOCK_REALTIME, &now);
    strftime(date, sizeof date, "%Y-%m-%dT%H:%M:%S", gmtime_r(&now.tv_sec, &parts));
    fprintf(out, is_json ? "{\"time\":\"%s.%06ldZ\"," : "%s.%06ldZ ", date, now.tv_nsec / 1000);
}

/* A message as text or as JSON, for which the room grows. */
static size_t written(const struct neli_host *host, const struct neli_message *message) {
    uint16_t protocol = host == hosts[0] ? NETLINK_ROUTE : NETLINK_GENERIC;
    const uint8_t *bytes = neli_host_item(host);
    size_t length = neli_host_item_length(host), size = 0;
    for (;;) {
        int32_t code = is_json ? neli_message_json(&tables, protocol, bytes, length, message, text, room, &size)
                               : neli_message_text(&tables, protocol, bytes, length, message, text, room, &size);
        if (code == NELI_OK) return size;
        char *grown = code == NELI_ROOM ? realloc(text, size) : NULL;
        if (grown == NULL) not_begun("a message", "no memory");
        text = grown;
        room = size;
    }
}

/* JSON is one object: the time is its first member. Text ends with its last line. */
static void print_message(const struct neli_host *host, const struct neli_message *message) {
    size_t size = written(host, message), begin = is_json ? 1 : 0;
    print_time();
    fwrite(text + begin, 1, size - begin, out);
    if (is_json) fputc('\n', out);
    fflush(out);
}

/* Prints what is there. */
static void print_all(struct neli_host *host) {
    struct neli_message message;
    for (; left > 0; left--) {
        int32_t code = neli_host_next(host, NELI_MULTICAST, &message);
        if (code == NELI_LINK && neli_host_fault(host) == EAGAIN) return;
        if (code == NELI_ITEM) {
            print_message(host, &message);
            continue;
        }
        if (status_of(code) != STATUS_LOST) fail(host, program, code, NULL);
        char why[128];
        neli_host_explain(host, code, NULL, why, sizeof why);
        print_time();
        fprintf(out, is_json ? "\"lost\":\"%s\"}\n" : "lost some: %s\n", why);
        fflush(out);
        status = STATUS_LOST;
    }
}

/* From now on these signals come while it waits, and end it. */
static void end_by_signals(void) {
    struct sigaction action = {.sa_handler = stop};
    sigset_t both;
    sigemptyset(&both);
    sigaddset(&both, SIGINT);
    sigaddset(&both, SIGTERM);
    sigprocmask(SIG_BLOCK, &both, &waiting);
    sigaction(SIGINT, &action, NULL);
    sigaction(SIGTERM, &action, NULL);
}

/* Prints until enough has come, or a signal has. */
static void watch(void) {
    struct pollfd watched[2];
    for (int i = 0; i < 2; i++) {
        watched[i] = (struct pollfd){.fd = hosts[i] != NULL ? neli_host_fd(hosts[i]) : -1, .events = POLLIN};
        if (hosts[i] != NULL) neli_host_set_wait(hosts[i], 0);
    }
    while (left > 0 && !is_stopped) {
        (void)ppoll(watched, 2, NULL, &waiting);
        for (int i = 0; i < 2; i++)
            if (hosts[i] != NULL) print_all(hosts[i]);
    }
}

int main(int argc, char **argv) {
    unsigned long size = 4ul << 20;
    bool is_right = true;
    if (argc > 0) name_program(argv[0]);
    for (int option; is_right && (option = getopt(argc, argv, "jc:b:")) != -1;) {
        if (option == 'j') is_json = true;
        else is_right = (option == 'c' && is_number(optarg, &left)) || (option == 'b' && is_number(optarg, &size));
    }
    if (!is_right || optind == argc || size > INT32_MAX) {
        fprintf(stderr, "usage: %s [-j] [-c COUNT] [-b BYTES] FAMILY..\n", program);
        return STATUS_NOT_BEGUN;
    }
    if (neli_tables_built_in(&tables) != NELI_OK) not_begun("the tables", "no memory");
    for (int i = optind; i < argc; i++) {
        if (strcmp(argv[i], "route") == 0) join_route((int)size);
        else join_generic(argv[i], (int)size);
    }
    out = fopencookie(NULL, "w", (cookie_io_functions_t){.write = put_out});
    if (out == NULL) not_begun("the output", "no memory");
    end_by_signals();
    fputs(is_json ? "{\"monitoring\":true}\n" : "monitoring\n", out);
    fflush(out);
    watch();
    for (int i = 0; i < 2; i++) neli_host_close(hosts[i]);
    neli_tables_free(&tables);
    free(text);
    if (status != STATUS_COMPLETE) fprintf(stderr, "%s: some were lost\n", program);
    return (int)status;
}
