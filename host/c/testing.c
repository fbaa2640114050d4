#define _GNU_SOURCE
#include "testing.h"
#include <errno.h>
#include <linux/if_link.h>
#include <linux/rtnetlink.h>
#include <stdio.h>
#include <stdlib.h>
#include <string.h>
#include <sys/socket.h>
#include <sys/wait.h>
#include <time.h>

static const uint32_t link_group = RTNLGRP_LINK;

void want(bool holds, const char *claim, const char *file, int line) {
    if (holds) return;
    printf("%s, line %d: not so: %s\n", file, line, claim);
    exit(1);
}

int rounds = 10000;

int main(int argc, char **argv) {
    if (argc > 1 && getenv("NELI_OWN_NAMESPACE") == NULL) return 2;
    if (argc > 2) rounds = atoi(argv[2]);
    for (const struct test *test = tests; test->name != NULL; test++) {
        if (argc < 2) puts(test->name);
        else if (strcmp(argv[1], test->name) == 0) return test->run(), 0;
    }
    return argc < 2 ? 0 : 2;
}

struct neli_host *route_host(bool listens) {
    struct neli_host *host;
    open_or_fail(&host, NETLINK_ROUTE, &link_group, listens ? 1 : 0);
    return host;
}

void done(struct neli_host *host, uint16_t type, uint16_t flags, struct body body) {
    struct neli_message message;
    WANT(ask(host, type, flags, &body, &message) == NELI_END);
}

void make_pairs(struct neli_host *host, int count) {
    for (int i = 0; i < count; i++) {
        char name[16], peer[16];
        snprintf(name, sizeof name, "pair%d", i);
        snprintf(peer, sizeof peer, "peer%d", i);
        done(host, RTM_NEWLINK, NLM_F_CREATE | NLM_F_EXCL, pair(name, peer));
    }
}

void remove_link(struct neli_host *host, const char *name) {
    struct body body = link_body(0, false);
    put_text(&body, IFLA_IFNAME, name);
    done(host, RTM_DELLINK, 0, body);
}

void set_loopback(struct neli_host *host, bool is_up) {
    done(host, RTM_SETLINK, 0, link_body(1, is_up));
}

size_t send_dump(struct neli_host *host) {
    struct ifinfomsg all = {0};
    size_t handle = 0;
    WANT(neli_host_send(host, RTM_GETLINK, NLM_F_DUMP, &all, sizeof all, &handle) == NELI_OK);
    return handle;
}

size_t send_question(struct neli_host *host, int index) {
    struct ifinfomsg link = {.ifi_index = index};
    size_t handle = 0;
    WANT(neli_host_send(host, RTM_GETLINK, NLM_F_ACK, &link, sizeof link, &handle) == NELI_OK);
    return handle;
}

int count_links(struct neli_host *host, size_t dump) {
    struct neli_message message;
    int32_t code;
    int count = 0;
    while ((code = neli_host_next(host, dump, &message)) == NELI_ITEM) count += message.type == RTM_NEWLINK;
    WANT(code == NELI_END);
    WANT(neli_host_close_request(host, dump) == NELI_OK);
    return count;
}

void want_loopback(struct neli_host *host, size_t handle) {
    struct neli_message message;
    struct neli_walk walk;
    struct neli_attribute name;
    WANT(neli_host_next(host, handle, &message) == NELI_ITEM && message.type == RTM_NEWLINK);
    WANT(neli_attributes_of(&message, sizeof(struct ifinfomsg), &walk) == NELI_OK);
    WANT(neli_host_find(host, &walk, IFLA_IFNAME, &name) && strcmp(neli_host_text(host, &name), "lo") == 0);
    WANT(neli_host_next(host, handle, &message) == NELI_ITEM && message.type == NLMSG_ERROR);
    WANT(neli_host_next(host, handle, &message) == NELI_END);
    WANT(neli_host_close_request(host, handle) == NELI_OK);
}

void hand_in(struct neli_host *host, uint16_t type, const void *body, size_t length) {
    struct neli_writer writer = {0};
    uint8_t out[64];
    size_t taken;
    WANT(neli_begin_message(out, sizeof out, &writer, type, 0, 0, 0) == NELI_OK);
    WANT(neli_put_bytes(out, sizeof out, &writer, body, length) == NELI_OK);
    WANT(neli_end_message(out, sizeof out, &writer) == NELI_OK);
    WANT(neli_session_receive(&host->session, out, writer.end, link_group, true, &taken) == NELI_OK);
    WANT(taken == writer.end);
}

int in_use(struct neli_host *host) {
    int count = 0;
    for (uint32_t number = 0; number < 10000; number++)
        count += neli_session_is_in_use(&host->session, number) == NELI_IN_USE;
    return count;
}

void set_short_wait(struct neli_host *host) {
    host->link.wait = 200;
}

void rest(long microseconds) {
    struct timespec time = {microseconds / 1000000, microseconds % 1000000 * 1000};
    nanosleep(&time, NULL);
}

void follow(struct neli_host *host, pid_t storm, struct picture *picture, long microseconds,
            void (*take)(const struct neli_host *host, const struct neli_message *message, void *picture),
            int32_t (*resync)(struct neli_host *host, int times, struct picture *picture)) {
    struct neli_message message;
    int32_t code;
    int status = 1, losses = 0;
    bool is_over_yet = false, was_over;
    do {
        was_over = is_over_yet;
        if (!is_over_yet) is_over_yet = waitpid(storm, &status, WNOHANG) == storm;
        code = neli_host_next(host, NELI_MULTICAST, &message);
        if (code == NELI_ITEM) take(host, &message, picture), rest(microseconds);
        else if (!is_over(host, code, EAGAIN)) {
            WANT(is_over(host, code, ENOBUFS));
            losses++;
            WANT(resync(host, 1000, picture) == NELI_OK);
        }
    } while (!was_over || !is_over(host, code, EAGAIN));
    WANT(status == 0 && losses > 0);
}

void set_buffer(struct neli_host *host, int size) {
    WANT(setsockopt(host->link.fd, SOL_SOCKET, SO_RCVBUF, &size, sizeof size) == 0);
}

bool is_over(const struct neli_host *host, int32_t code, int fault) {
    return code == NELI_LINK && neli_host_fault(host) == fault;
}
