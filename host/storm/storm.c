/* `storm SEED` requests, reads and closes by a seed, over a socket of `shim.c`; and prints the results, a line each:
 * `sent NUMBER`, `item NUMBER TYPE`, `over NUMBER CODE` for a request, `group NUMBER MTU` and `lost ERRNO` for messages
 * to groups, `slow MILLISECONDS` for a wait that was too long. When nothing arrives any more it reads the rest, and
 * prints `left NUMBER` for a request that may have more to come, and `open COUNT` for those that are still kept.
 * `check` compares it with the socket's datagrams. */
#define _GNU_SOURCE
#include "host.h"
#include <errno.h>
#include <linux/if_addr.h>
#include <linux/if_link.h>
#include <linux/rtnetlink.h>
#include <stdio.h>
#include <stdlib.h>
#include <string.h>
#include <sys/socket.h>
#include <time.h>

#define REQUESTS 8
#define STEPS 250
#define SHORT 3
#define LONG 300

static const uint32_t groups[] = {RTNLGRP_LINK};
static struct neli_host *host;
static uint64_t state;
static struct {
    size_t handle;
    unsigned number;
} open[REQUESTS];
static size_t count;
static unsigned number, mtu = 5000;

static unsigned below(unsigned limit) {
    state ^= state << 13;
    state ^= state >> 7;
    state ^= state << 17;
    return (unsigned)(state >> 33) % limit;
}

static int64_t milliseconds(void) {
    struct timespec time;
    clock_gettime(CLOCK_MONOTONIC, &time);
    return (int64_t)time.tv_sec * 1000 + time.tv_nsec / 1000000;
}

/* The next item, within a time. */
static int32_t next(size_t handle, int wait, struct neli_message *message) {
    int64_t start = milliseconds();
    host->link.wait = wait;
    int32_t code = neli_host_next(host, handle, message);
    int64_t took = milliseconds() - start;
    if (took > wait + 3000) printf("slow %lld\n", (long long)took);
    return code;
}

static bool is_late(int32_t code) {
    return code == NELI_LINK && neli_host_fault(host) == EAGAIN;
}

/* Sends a request, if there is room for one. */
static void ask(uint16_t type, uint16_t flags, const void *body, size_t size) {
    if (count == REQUESTS) return;
    int32_t code = neli_host_send(host, type, flags, body, size, &open[count].handle);
    if (code == NELI_LINK) printf("refused %d\n", neli_host_fault(host));
    if (code != NELI_OK) return;
    open[count].number = number++;
    printf("sent %u\n", open[count++].number);
}

static void ask_something(void) {
    static const uint16_t changes[] = {0, NLM_F_ACK, NLM_F_ECHO, NLM_F_ECHO | NLM_F_ACK};
    struct {
        struct ifinfomsg link;
        uint16_t length, type;
        uint32_t mtu;
    } link = {.link.ifi_index = below(4) == 0 ? 4711 : 1, .length = 8, .type = IFLA_MTU};
    struct {
        struct ifaddrmsg address;
        uint16_t length, type;
        uint8_t local[4];
    } address = {{AF_INET, 8, 0, 0, 1}, 8, IFA_LOCAL, {10, 0, 0, (uint8_t)(1 + below(200))}};
    switch (below(5)) {
    case 0: ask(RTM_GETLINK, NLM_F_DUMP, &(struct ifinfomsg){0}, sizeof link.link); break;
    case 1:
        link.mtu = mtu++;
        ask(RTM_SETLINK, changes[below(2)], &link, sizeof link);
        break;
    case 2:
        ask(RTM_NEWADDR, NLM_F_CREATE | NLM_F_REPLACE | changes[below(4)], &address, sizeof address);
        break;
    default: ask(RTM_GETLINK, NLM_F_ACK, &link.link, sizeof link.link);
    }
}

static void close_at(size_t at) {
    if (neli_host_close_request(host, open[at].handle) != NELI_OK) printf("wrong close\n");
    open[at] = open[--count];
}

/* Reads a request once, or to its end. */
static void read_at(size_t at, int wait, bool to_its_end) {
    struct neli_message message;
    int32_t code;
    do {
        code = next(open[at].handle, wait, &message);
        if (code == NELI_ITEM) printf("item %u %u\n", open[at].number, message.type);
    } while (code == NELI_ITEM && to_its_end);
    if (code == NELI_ITEM || is_late(code)) return;
    printf("over %u %d\n", open[at].number, code);
    if (code != NELI_END || below(2) == 0) close_at(at);
}

static uint32_t mtu_of(const struct neli_message *message) {
    struct neli_walk walk;
    struct neli_attribute found;
    uint32_t value = 0;
    if (neli_attributes_of(message, sizeof(struct ifinfomsg), &walk) == NELI_OK &&
        neli_host_find(host, &walk, IFLA_MTU, &found))
        (void)neli_get_u32(host->item + found.payload, found.payload_length, 0, &value);
    return value;
}

/* Reads messages for groups; false if none arrived in time. */
static bool listen_once(int wait) {
    struct neli_message message;
    int32_t code = next(NELI_MULTICAST, wait, &message);
    if (code == NELI_ITEM) printf("group %u %u\n", message.number, mtu_of(&message));
    else if (is_late(code)) return false;
    else if (code == NELI_LINK) printf("lost %d\n", neli_host_fault(host));
    else printf("wrong group %d\n", code);
    return true;
}

int main(int argc, char **argv) {
    state = (argc > 1 ? strtoull(argv[1], NULL, 10) : 0) * 0x9e3779b97f4a7c15u + 7;
    if (neli_host_open(&host, NETLINK_ROUTE, groups, 1) != NELI_OK) return 1;
    for (int i = 0; i < STEPS; i++) {
        unsigned what = below(10);
        if (what < 4) ask_something();
        else if (what < 7 && count > 0) read_at(below((unsigned)count), SHORT, below(2) == 0);
        else if (what < 8 && count > 0) close_at(below((unsigned)count));
        else listen_once(0);
    }
    while (listen_once(LONG)) continue;
    while (count > 0) {
        size_t before = count;
        read_at(count - 1, 0, true);
        if (count < before) continue;
        printf("left %u\n", open[count - 1].number);
        close_at(count - 1);
    }
    while (listen_once(0)) continue;
    count = 0;
    for (unsigned i = 0; i < number; i++) count += neli_session_is_in_use(&host->session, i) != NELI_OK;
    printf("open %zu\n", count);
    neli_host_close(host);
    return 0;
}
