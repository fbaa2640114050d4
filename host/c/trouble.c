/* The layer over the socket under trouble: requests that are closed early, lost, echoed or never answered, and messages
 * without a request. */
#define _GNU_SOURCE
#include "refused.h"
#include "testing.h"
#include <errno.h>
#include <limits.h>
#include <linux/if_addr.h>
#include <linux/if_link.h>
#include <linux/rtnetlink.h>
#include <malloc.h>
#include <signal.h>
#include <stdio.h>
#include <stdlib.h>
#include <string.h>
#include <sys/socket.h>
#include <sys/time.h>
#include <sys/wait.h>
#include <time.h>
#include <unistd.h>

/* A request that is not answered: a change without ACK. */
static size_t send_unanswered(struct neli_host *host) {
    struct body body = link_body(1, true);
    size_t handle = 0;
    WANT(neli_host_send(host, RTM_SETLINK, 0, body.bytes, body.writer.end, &handle) == NELI_OK);
    return handle;
}

static int64_t milliseconds(void) {
    struct timespec time;
    clock_gettime(CLOCK_MONOTONIC, &time);
    return (int64_t)time.tv_sec * 1000 + time.tv_nsec / 1000000;
}

static struct body mtu_body(int index, uint32_t mtu) {
    struct body body = link_body(index, true);
    put_attribute(&body, IFLA_MTU, &mtu, sizeof mtu);
    return body;
}

/* ---- Closed early ---- */

static void a_handle_that_is_closed_unread(void) {
    struct neli_host *host = route_host(false);
    struct neli_message message;
    WANT(neli_host_close_request(host, send_question(host, 1)) == NELI_OK);
    for (int i = 0; i < 100; i++) {
        want_loopback(host, send_question(host, 1));
        WANT(neli_host_close_request(host, send_question(host, 1)) == NELI_OK);
        size_t half = send_question(host, 1);
        WANT(neli_host_next(host, half, &message) == NELI_ITEM);
        WANT(neli_host_close_request(host, half) == NELI_OK);
    }
    WANT(neli_host_close_request(host, send_dump(host)) == NELI_OK);
    want_loopback(host, send_question(host, 1));
    neli_host_close(host);
}

/* The answers of a request end with a loss, and the kernel's replies arrive all the same. */
static void a_handle_that_is_closed_after_a_loss(void) {
    struct neli_host *other = route_host(false), *host = route_host(true);
    struct neli_message message;
    struct neli_verdict verdict;
    int32_t code;
    set_buffer(host, 1);
    for (int i = 0; i < 100; i++) set_loopback(other, i % 2 == 0);
    set_buffer(host, 1 << 20);
    size_t dump = send_dump(host);
    while ((code = neli_host_next(host, dump, &message)) == NELI_ITEM) continue;
    WANT(is_over(host, code, ENOBUFS) && neli_host_verdict(host, dump, &verdict) == NELI_LINK);
    WANT(neli_host_close_request(host, dump) == NELI_OK);
    for (int i = 0; i < 100; i++) want_loopback(host, send_question(host, 1));
    neli_host_close(other);
    neli_host_close(host);
}

static void a_number_that_may_still_be_answered(void) {
    struct neli_host *host = route_host(false);
    size_t first = send_question(host, 1), second;
    WANT(neli_host_close_request(host, first) == NELI_OK);
    WANT(neli_session_set_number(&host->session, 0) == NELI_OK);
    second = send_question(host, 1);
    WANT(second != first && in_use(host) == 2);
    /* No number has more than 32 bits. */
    WANT(neli_host_close_request(host, second + ((size_t)1 << 32)) == NELI_HANDLE);
    want_loopback(host, second);
    WANT(in_use(host) == 0 && neli_host_close_request(host, second) == NELI_HANDLE);
    WANT(neli_session_set_number(&host->session, 0) == NELI_OK);
    WANT((second = send_question(host, 1)) == first);
    want_loopback(host, second);
    neli_host_close(host);
}

static void a_dump_that_is_broken_off(void) {
    struct neli_host *host = route_host(false);
    struct neli_message message;
    make_pairs(host, 60);
    for (int i = 0; i < 20; i++) {
        size_t dump = send_dump(host);
        WANT(neli_host_next(host, dump, &message) == NELI_ITEM);
        WANT(neli_host_close_request(host, dump) == NELI_OK);
    }
    size_t first = send_dump(host), second = send_dump(host);
    WANT(count_links(host, second) == 121);
    WANT(count_links(host, first) == 121);
    neli_host_close(host);
}

/* Routing begins a dump for either bit of NLM_F_DUMP. */
static void a_dump_by_one_bit(void) {
    static const uint16_t bits[] = {NLM_F_ROOT, NLM_F_MATCH};
    struct neli_host *host = route_host(false);
    struct ifinfomsg all = {0};
    make_pairs(host, 60);
    for (int i = 0; i < 2; i++) {
        size_t first = send_dump(host), second;
        WANT(neli_host_send(host, RTM_GETLINK, bits[i], &all, sizeof all, &second) == NELI_OK);
        size_t third = send_dump(host);
        WANT(count_links(host, third) == 121);
        WANT(count_links(host, second) == 121);
        WANT(count_links(host, first) == 121);
    }
    neli_host_close(host);
}

/* ---- What is kept ---- */

size_t __sanitizer_get_current_allocated_bytes(void) __attribute__((weak));

static size_t allocated(void) {
    if (__sanitizer_get_current_allocated_bytes != NULL) return __sanitizer_get_current_allocated_bytes();
    struct mallinfo2 all = mallinfo2();
    return all.uordblks + all.hblkhd;
}

static void what_nobody_reads_is_not_kept(void) {
    struct neli_host *other = route_host(false), *host = route_host(true);
    struct neli_message message;
    set_short_wait(host);
    set_loopback(host, true);
    WANT(neli_host_next(host, NELI_MULTICAST, &message) == NELI_ITEM);
    WANT(neli_host_close_request(host, send_unanswered(host)) == NELI_OK);
    size_t before = 0;
    for (int i = 0; i < 3000; i++) {
        done(other, RTM_SETLINK, 0, mtu_body(1, 1000u + (uint32_t)i));
        WANT(neli_host_next(host, NELI_MULTICAST, &message) == NELI_ITEM);
        if (i == 100) before = allocated();
    }
    WANT(allocated() < before + 100000);
    for (int i = 0; i < 3000; i++) WANT(neli_host_close_request(host, send_unanswered(host)) == NELI_OK);
    WANT(is_over(host, neli_host_next(host, NELI_MULTICAST, &message), EAGAIN) && in_use(host) == 0);
    WANT(neli_host_close_request(host, NELI_MULTICAST) == NELI_OK);
    before = allocated();
    for (int i = 0; i < 1000; i++) {
        done(other, RTM_SETLINK, 0, mtu_body(1, 5000u + (uint32_t)i));
        want_loopback(host, send_question(host, 1));
    }
    WANT(allocated() < before + 100000);
    neli_host_close(other);
    neli_host_close(host);
}

/* ---- Echoes ---- */

static size_t send_address(struct neli_host *host, uint16_t flags, uint8_t last) {
    struct ifaddrmsg address = {.ifa_family = AF_INET, .ifa_prefixlen = 24, .ifa_index = 1};
    struct body body = {0};
    uint8_t local[] = {203, 0, 113, last};
    size_t handle = 0;
    put(&body, &address, sizeof address);
    put_attribute(&body, IFA_LOCAL, local, sizeof local);
    WANT(neli_host_send(host, RTM_NEWADDR, flags | NLM_F_CREATE | NLM_F_EXCL, body.bytes, body.writer.end, &handle) ==
         0);
    return handle;
}

/* An address arrives, and then nothing more, or the acknowledgement. */
static void want_echo(struct neli_host *host, size_t handle, bool has_ack) {
    struct neli_message message;
    WANT(neli_host_next(host, handle, &message) == NELI_ITEM && message.type == RTM_NEWADDR);
    if (has_ack) WANT(neli_host_next(host, handle, &message) == NELI_ITEM && message.type == NLMSG_ERROR);
    WANT(neli_host_next(host, handle, &message) == NELI_END);
    WANT(neli_host_close_request(host, handle) == NELI_OK);
}

static void an_echo_reaches_its_request(void) {
    static const uint32_t groups[] = {RTNLGRP_IPV4_IFADDR};
    struct neli_host *deaf = route_host(false), *host;
    struct neli_message message;
    set_short_wait(deaf);
    want_echo(deaf, send_address(deaf, NLM_F_ECHO, 1), false);
    want_echo(deaf, send_address(deaf, NLM_F_ECHO | NLM_F_ACK, 2), true);
    WANT(is_over(deaf, neli_host_next(deaf, NELI_MULTICAST, &message), EAGAIN));

    open_or_fail(&host, NETLINK_ROUTE, groups, 1);
    set_short_wait(host);
    want_echo(host, send_address(host, NLM_F_ECHO | NLM_F_ACK, 3), true);
    WANT(neli_host_next(host, NELI_MULTICAST, &message) == NELI_ITEM && message.type == RTM_NEWADDR);
    /* Without ECHO the request causes only a notification, though it has the request's number. */
    size_t quiet = send_address(host, NLM_F_ACK, 4);
    WANT(neli_host_next(host, quiet, &message) == NELI_ITEM && message.type == NLMSG_ERROR);
    WANT(neli_host_next(host, NELI_MULTICAST, &message) == NELI_ITEM && message.type == RTM_NEWADDR);
    WANT(is_over(host, neli_host_next(host, NELI_MULTICAST, &message), EAGAIN));
    neli_host_close(host);
    neli_host_close(deaf);
}

/* ---- Losses ---- */

static void a_loss_stands_where_it_came(void) {
    struct neli_host *other = route_host(false), *host = route_host(true);
    struct neli_message message;
    set_short_wait(host);
    set_loopback(other, true);
    want_loopback(host, send_question(host, 1));
    set_buffer(host, 1);
    for (int i = 0; i < 100; i++) set_loopback(other, i % 2 == 0);
    size_t told = send_question(host, 1);
    WANT(is_over(host, neli_host_next(host, told, &message), ENOBUFS));
    /* The end of a wait is no fault of the socket, and does not change its reported fault. */
    WANT(neli_host_close_request(host, told) == NELI_OK);
    WANT(is_over(host, neli_host_next(host, NELI_HOST_UNASKED, &message), EAGAIN));
    WANT(neli_host_next(host, NELI_MULTICAST, &message) == NELI_ITEM && message.type == RTM_NEWLINK);
    WANT(is_over(host, neli_host_next(host, NELI_MULTICAST, &message), ENOBUFS));
    WANT(neli_host_next(host, NELI_MULTICAST, &message) == NELI_ITEM);
    neli_host_close(other);
    neli_host_close(host);
}

/* Hands in a fault, as the socket would. */
static void hand_in_fault(struct neli_host *host, int fault) {
    WANT(neli_session_fault(&host->session, fault) == NELI_OK);
}

static void each_request_has_its_own_fault(void) {
    struct neli_host *host = route_host(false);
    struct neli_message message;
    struct neli_lent lent;
    size_t first = send_question(host, 1);
    hand_in_fault(host, EMSGSIZE);
    size_t second = send_question(host, 1);
    hand_in_fault(host, ENOBUFS);
    /* The third goes out once the socket was seen empty, and is whole. */
    size_t third = send_question(host, 1);
    WANT(is_over(host, neli_host_lend(host, first, &lent), EMSGSIZE));
    WANT(is_over(host, neli_host_next(host, first, &message), EMSGSIZE));
    WANT(is_over(host, neli_host_next(host, second, &message), ENOBUFS));
    want_loopback(host, third);
    neli_host_close(host);
}

/* A picture: the MTU of each link, by its index. */
struct picture {
    uint32_t mtu[4096];
};

static void take(const struct neli_host *host, const struct neli_message *message, void *of) {
    struct picture *picture = of;
    struct ifinfomsg link;
    struct neli_walk walk;
    struct neli_attribute found;
    if (message == NULL) {
        *picture = (struct picture){0};
        return;
    }
    WANT(neli_attributes_of(message, sizeof link, &walk) == NELI_OK);
    memcpy(&link, host->item + message->payload, sizeof link);
    uint32_t *mtu = &picture->mtu[(unsigned)link.ifi_index % 4096];
    *mtu = 0;
    if (message->type == RTM_NEWLINK && neli_host_find(host, &walk, IFLA_MTU, &found))
        WANT(neli_get_u32(host->item + found.payload, found.payload_length, 0, mtu) == NELI_OK);
}

/* A picture by a dump, which is taken at most so many times. */
static int32_t resync(struct neli_host *host, int times, struct picture *picture) {
    static const struct ifinfomsg all;
    struct neli_message last;
    struct neli_dump dump = {.type = RTM_GETLINK, .body = &all, .length = sizeof all, .times = times, .take = take};
    dump.list = picture;
    return neli_host_resync(host, &dump, &last);
}

/* Makes and removes links, and changes the MTU of another, as fast as it can. It returns when it has begun. */
static pid_t storm(int first, int count) {
    int both[2];
    char byte;
    WANT(pipe(both) == 0);
    pid_t child = fork();
    if (child != 0) {
        WANT(read(both[0], &byte, 1) == 1 && close(both[0]) == 0 && close(both[1]) == 0);
        return child;
    }
    struct neli_host *host = route_host(false);
    for (int i = first; i < first + count; i++) {
        char name[16], peer[16];
        snprintf(name, sizeof name, "a%d", i);
        snprintf(peer, sizeof peer, "b%d", i);
        done(host, RTM_NEWLINK, NLM_F_CREATE | NLM_F_EXCL, pair(name, peer));
        for (int j = 0; j < 30; j++) done(host, RTM_SETLINK, 0, mtu_body(1, 1000u + (uint32_t)(i * 30 + j)));
        if (i % 3 != 0) remove_link(host, name);
        if (i == first + 8) WANT(write(both[1], "", 1) == 1);
    }
    neli_host_close(host);
    _exit(0);
}

static void want_right_picture(int buffer, int first) {
    static struct picture picture, truth;
    struct neli_host *host = route_host(true);
    set_buffer(host, buffer);
    host->link.wait = 300;
    WANT(resync(host, 5, &picture) == NELI_OK);
    follow(host, storm(first, 30), &picture, 1000, take, resync);
    set_buffer(host, 1 << 20);
    WANT(resync(host, 5, &truth) == NELI_OK);
    WANT(memcmp(&picture, &truth, sizeof truth) == 0);
    neli_host_close(host);
}

static void a_picture_is_right_after_a_storm(void) {
    struct neli_host *host = route_host(false);
    make_pairs(host, 30);
    neli_host_close(host);
    for (int i = 0; i < 3; i++) want_right_picture(8000, 100 * i);
}

static void a_picture_by_a_larger_buffer(void) {
    struct neli_host *host = route_host(false);
    make_pairs(host, 30);
    neli_host_close(host);
    for (int i = 0; i < 3; i++) want_right_picture(20000, 100 * i);
}

/* ---- Waits ---- */

static void a_wait_has_an_end(void) {
    struct neli_host *host = route_host(true);
    struct neli_message message;
    pid_t child = fork();
    if (child == 0) {
        struct neli_host *other = route_host(false);
        for (int i = 0;; i++) {
            set_loopback(other, i % 2 == 0);
            rest(20000);
        }
    }
    host->link.wait = 300;
    int64_t before = milliseconds();
    WANT(is_over(host, neli_host_next(host, NELI_HOST_UNASKED, &message), EAGAIN));
    int64_t after = milliseconds();
    kill(child, SIGKILL);
    waitpid(child, NULL, 0);
    WANT(after - before >= 295 && after - before < 1500);
    neli_host_close(host);
}

/* Whether a datagram has arrived that was not taken in. */
static bool is_more(const struct neli_host *host) {
    char byte;
    return recv(host->link.fd, &byte, sizeof byte, MSG_PEEK | MSG_DONTWAIT) > 0;
}

/* A handle that nothing comes for, while thousands of datagrams for groups have arrived already. */
static void a_wait_has_an_end_while_more_arrives(void) {
    struct neli_host *host = route_host(true), *other = route_host(false);
    struct neli_message message;
    set_buffer(host, 1 << 23);
    for (int i = 0; i < 3000; i++) set_loopback(other, i % 2 == 0);
    host->link.wait = 1;
    WANT(is_over(host, neli_host_next(host, NELI_HOST_UNASKED, &message), EAGAIN) && is_more(host));
    link_stop(&host->link);
    host->link.wait = -1;
    WANT(is_over(host, neli_host_next(host, NELI_HOST_UNASKED, &message), ECANCELED) && is_more(host));
    neli_host_close(other);
    neli_host_close(host);
}

static struct neli_host *stopped;

static void on_alarm(int number) {
    (void)number;
    if (stopped != NULL) link_stop(&stopped->link);
}

static void set_alarm(void) {
    struct itimerval time = {.it_value.tv_usec = 100000};
    signal(SIGALRM, on_alarm);
    WANT(setitimer(ITIMER_REAL, &time, NULL) == 0);
}

static void a_wait_is_stopped(void) {
    struct neli_host *host = route_host(true);
    struct neli_message message;
    set_alarm();
    host->link.wait = 300;
    int64_t before = milliseconds();
    WANT(is_over(host, neli_host_next(host, NELI_MULTICAST, &message), EAGAIN) && milliseconds() - before >= 295);
    host->link.wait = -1;
    host->link.ends_by_signals = true;
    set_alarm();
    WANT(is_over(host, neli_host_next(host, NELI_MULTICAST, &message), EINTR));
    host->link.ends_by_signals = false;
    stopped = host;
    set_alarm();
    WANT(is_over(host, neli_host_next(host, NELI_MULTICAST, &message), ECANCELED));
    want_loopback(host, send_question(host, 1));
    WANT(is_over(host, neli_host_next(host, NELI_MULTICAST, &message), ECANCELED));
    neli_host_close(host);
}

/* ---- Messages without a request, and other small things ---- */

/* A request behind the session's back: its answer has a number that no request has. */
static void ask_by_hand(struct neli_host *host, uint32_t number) {
    struct ifinfomsg link = {.ifi_index = 1};
    struct neli_writer writer = {0};
    uint8_t out[64];
    uint16_t flags = NLM_F_REQUEST | NLM_F_ACK;
    WANT(neli_begin_message(out, sizeof out, &writer, RTM_GETLINK, flags, number, 0) == NELI_OK);
    WANT(neli_put_bytes(out, sizeof out, &writer, &link, sizeof link) == NELI_OK);
    WANT(neli_end_message(out, sizeof out, &writer) == NELI_OK);
    WANT(send(host->link.fd, out, writer.end, 0) == (ssize_t)writer.end);
}

static void what_was_not_asked_for_ends_nothing(void) {
    struct neli_host *host = route_host(false);
    struct neli_message message;
    ask_by_hand(host, 4711);
    want_loopback(host, send_question(host, 1));
    set_short_wait(host);
    WANT(is_over(host, neli_host_next(host, NELI_HOST_UNASKED, &message), EAGAIN));
    host->keeps_unasked = true;
    for (uint32_t i = 0; i < 10; i++) ask_by_hand(host, 4711 + i);
    want_loopback(host, send_question(host, 1));
    for (uint32_t i = 0; i < 10; i++) {
        WANT(neli_host_next(host, NELI_HOST_UNASKED, &message) == NELI_ITEM);
        WANT(message.type == RTM_NEWLINK && message.number == 4711 + i);
        WANT(neli_host_next(host, NELI_HOST_UNASKED, &message) == NELI_ITEM && message.type == NLMSG_ERROR);
    }
    WANT(is_over(host, neli_host_next(host, NELI_HOST_UNASKED, &message), EAGAIN));
    neli_host_close(host);
}

/* A host over a socket pair, whose other end plays the kernel. */
static int play_kernel(struct neli_host **host) {
    int both[2];
    *host = route_host(false);
    WANT(close((*host)->link.fd) == 0 && socketpair(AF_UNIX, SOCK_DGRAM, 0, both) == 0);
    (*host)->link.fd = both[0];
    set_short_wait(*host);
    return both[1];
}

/* Plays a message to the host, without so many bytes of its padding, and then of its body. */
static void play(int kernel, const struct neli_host *host, uint16_t type, uint32_t number, const void *body,
                 size_t length,
                 size_t cut) {
    struct neli_writer writer = {0};
    uint8_t out[128];
    WANT(neli_begin_message(out, sizeof out, &writer, type, 0, number, host->link.port) == NELI_OK);
    WANT(neli_put_bytes(out, sizeof out, &writer, body, length) == NELI_OK);
    memcpy(out, &(uint32_t){(uint32_t)(16 + length)}, sizeof(uint32_t));
    WANT(send(kernel, out, writer.end - cut, 0) == (ssize_t)(writer.end - cut));
}

static int full = -1;

static void empty_it(int number) {
    uint8_t bytes[64];
    (void)number;
    while (recv(full, bytes, sizeof bytes, MSG_DONTWAIT) > 0) continue;
}

/* A socket that takes no more: a send does not wait, and a read sends it once there is room. */
static void what_would_block_is_sent_later(void) {
    struct itimerval time = {.it_value.tv_usec = 100000};
    struct neli_host *host;
    struct neli_message message;
    uint8_t bytes[64];
    size_t handle;
    full = play_kernel(&host);
    do
        handle = send_question(host, 1);
    while (!host->link.is_full);
    signal(SIGALRM, empty_it);
    WANT(setitimer(ITIMER_REAL, &time, NULL) == 0);
    host->link.wait = 500;
    WANT(is_over(host, neli_host_next(host, handle, &message), EAGAIN) && !host->link.is_full);
    WANT(recv(full, bytes, sizeof bytes, MSG_DONTWAIT) > 0 && recv(full, bytes, sizeof bytes, MSG_DONTWAIT) < 0);
    neli_host_close(host);
    close(full);
}

static void an_error_with_any_code(void) {
    struct neli_host *host;
    struct neli_message message;
    char text[64];
    int kernel = play_kernel(&host);
    int32_t error[5] = {INT32_MIN, 16, 0, 0, 0};
    size_t handle = send_question(host, 1);
    play(kernel, host, NLMSG_ERROR, 0, error, sizeof error, 0);
    WANT(neli_host_next(host, handle, &message) == NELI_KERNEL_ERROR);
    neli_host_explain(host, NELI_KERNEL_ERROR, &message, text, sizeof text);
    WANT(strcmp(text, "error -2147483648") == 0);
    neli_host_close(host);
    close(kernel);
}

static void a_padding_that_was_left_out(void) {
    struct neli_host *host;
    struct neli_message message;
    int kernel = play_kernel(&host);
    size_t handle = send_question(host, 1), other = send_question(host, 1);
    play(kernel, host, RTM_NEWLINK, 0, "17 bytes, or more", 17, 3);
    /* The length of an item is that with its padding. */
    WANT(neli_host_next(host, handle, &message) == NELI_ITEM && message.length == 36);
    WANT(memcmp(host->item + message.payload, "17 bytes, or more\0\0", 20) == 0);
    /* A datagram that ends before its last byte is a fault all the same, which every handle gets. */
    play(kernel, host, RTM_NEWLINK, 0, "17 bytes, or more", 17, 4);
    WANT(neli_host_next(host, other, &message) < NELI_OK);
    neli_host_close(host);
    close(kernel);
}

/* A program may have closed the host's descriptor. */
static void a_socket_that_is_gone(void) {
    static struct picture picture;
    struct neli_host *host = route_host(true);
    struct ifinfomsg all = {0};
    struct neli_message message;
    size_t dump, open = send_question(host, 1);
    WANT(neli_host_close_request(host, send_question(host, 1)) == NELI_OK && close(host->link.fd) == 0);
    WANT(is_over(host, neli_host_send(host, RTM_GETLINK, NLM_F_DUMP, &all, sizeof all, &dump), EBADF));
    WANT(is_over(host, neli_host_next(host, open, &message), EBADF));
    WANT(is_over(host, neli_host_next(host, NELI_MULTICAST, &message), EBADF));
    WANT(is_over(host, neli_host_next(host, NELI_HOST_UNASKED, &message), EBADF));
    WANT(is_over(host, resync(host, 3, &picture), EBADF));
    host->link.fd = -1;
    neli_host_close(host);
}

static void a_request_of_many_bytes(void) {
    struct neli_host *host = route_host(false);
    static struct {
        struct ifinfomsg link;
        uint16_t length, type;
        uint8_t payload[40000];
    } body = {.link.ifi_index = 1, .length = 40004, .type = 4000};
    size_t handle;
    WANT(neli_host_send(host, RTM_GETLINK, NLM_F_ACK, &body, sizeof body, &handle) == NELI_OK);
    want_loopback(host, handle);
    neli_host_close(host);
}

/* ---- Refused memory ---- */

/* The next item, and again if memory ran out. */
static int32_t next_again(struct neli_host *host, size_t handle, struct neli_message *message) {
    int32_t code = neli_host_next(host, handle, message);
    return code == NELI_MEMORY ? neli_host_next(host, handle, message) : code;
}

/* Whichever allocation is refused, the same call can be repeated, and nothing is lost. */
static void memory_that_is_refused_once(void) {
    static const uint32_t groups[] = {RTNLGRP_IPV4_IFADDR};
    struct ifinfomsg link = {.ifi_index = 1};
    bool was_refused = true;
    for (unsigned k = 1; was_refused; k++) {
        struct neli_host *host;
        struct neli_message message;
        size_t question;
        WANT(k < 200);
        open_or_fail(&host, NETLINK_ROUTE, groups, 1);
        host->link.wait = 200;
        host->keeps_unasked = true;
        size_t echo = send_address(host, NLM_F_ECHO | NLM_F_ACK, (uint8_t)k);
        left_to_refusal = k;
        ask_by_hand(host, 4711);
        int32_t code = neli_host_send(host, RTM_GETLINK, NLM_F_ACK, &link, sizeof link, &question);
        if (code == NELI_MEMORY) code = neli_host_send(host, RTM_GETLINK, NLM_F_ACK, &link, sizeof link, &question);
        WANT(code == NELI_OK);
        WANT(next_again(host, question, &message) == NELI_ITEM && message.type == RTM_NEWLINK);
        WANT(next_again(host, question, &message) == NELI_ITEM && message.type == NLMSG_ERROR);
        WANT(next_again(host, question, &message) == NELI_END);
        WANT(next_again(host, echo, &message) == NELI_ITEM && message.type == RTM_NEWADDR);
        WANT(next_again(host, echo, &message) == NELI_ITEM && message.type == NLMSG_ERROR);
        WANT(next_again(host, NELI_MULTICAST, &message) == NELI_ITEM && message.type == RTM_NEWADDR);
        WANT(next_again(host, NELI_HOST_UNASKED, &message) == NELI_ITEM && message.type == RTM_NEWLINK);
        WANT(next_again(host, NELI_HOST_UNASKED, &message) == NELI_ITEM && message.type == NLMSG_ERROR);
        was_refused = left_to_refusal == 0;
        left_to_refusal = 0;
        neli_host_close(host);
    }
}

/* Whichever allocation is refused while a loss comes, and messages before and after it, none of these is lost. */
static void memory_that_is_refused_to_a_loss(void) {
    bool was_refused = true;
    for (unsigned k = 1; was_refused; k++) {
        struct neli_host *other = route_host(false), *host = route_host(true);
        struct neli_message message;
        int32_t code;
        int lost = 0, refused = 0;
        WANT(k < 200);
        set_short_wait(host);
        host->keeps_unasked = true;
        ask_by_hand(host, 4711);
        set_buffer(host, 1);
        for (int i = 0; i < 20; i++) set_loopback(other, i % 2 == 0);
        left_to_refusal = k;
        do {
            code = neli_host_next(host, NELI_MULTICAST, &message);
            lost += is_over(host, code, ENOBUFS);
            refused += code == NELI_MEMORY;
        } while (!is_over(host, code, EAGAIN));
        was_refused = left_to_refusal == 0;
        left_to_refusal = 0;
        WANT(lost == 1 && refused <= 1);
        /* The kernel reports a loss before what it had kept. */
        WANT(is_over(host, neli_host_next(host, NELI_HOST_UNASKED, &message), ENOBUFS));
        WANT(neli_host_next(host, NELI_HOST_UNASKED, &message) == NELI_ITEM && message.type == RTM_NEWLINK);
        WANT(neli_host_next(host, NELI_HOST_UNASKED, &message) == NELI_ITEM && message.type == NLMSG_ERROR);
        neli_host_close(other);
        neli_host_close(host);
    }
}

/* Whichever allocation of a resync is refused, it drops what came before, and a later loss is read. */
static void memory_that_is_refused_to_a_resync(void) {
    static const int32_t error[5] = {-ENODEV, 16, 0, 0, 0};
    static const struct ifinfomsg link = {.ifi_index = 7};
    static struct picture picture;
    bool was_refused = true;
    for (unsigned k = 1; was_refused; k++) {
        struct neli_host *host = route_host(true);
        struct neli_message message;
        WANT(k < 200);
        set_short_wait(host);
        hand_in(host, RTM_DELLINK, &link, sizeof link);
        hand_in(host, NLMSG_ERROR, error, sizeof error);
        hand_in(host, RTM_DELLINK, &link, sizeof link);
        left_to_refusal = k;
        int32_t code = resync(host, 1, &picture);
        was_refused = left_to_refusal == 0;
        left_to_refusal = 0;
        WANT(code == NELI_OK || (was_refused && code == NELI_MEMORY));
        hand_in_fault(host, ENOBUFS);
        WANT(is_over(host, neli_host_next(host, NELI_MULTICAST, &message), ENOBUFS));
        WANT(is_over(host, neli_host_next(host, NELI_MULTICAST, &message), EAGAIN));
        WANT(resync(host, 1, &picture) == NELI_OK && picture.mtu[1] != 0);
        neli_host_close(host);
    }
}

/* An item that had no memory stays the next one, and is lent; a resync drops it too. */
static void an_item_without_memory(void) {
    static const struct ifinfomsg link = {.ifi_index = 7};
    static struct picture picture;
    struct neli_host *host = route_host(true);
    struct neli_message message;
    struct neli_lent lent;
    set_short_wait(host);
    for (int i = 0; i < 2; i++) {
        hand_in(host, RTM_DELLINK, &link, sizeof link);
        left_to_refusal = 1;
        WANT(neli_host_next(host, NELI_MULTICAST, &message) == NELI_MEMORY);
        left_to_refusal = 0;
        WANT(neli_host_lend(host, NELI_MULTICAST, &lent) == NELI_ITEM && lent.message.type == RTM_DELLINK);
        if (i == 0) WANT(neli_host_pass(host, NELI_MULTICAST) == NELI_OK);
    }
    WANT(resync(host, 1, &picture) == NELI_OK);
    WANT(is_over(host, neli_host_next(host, NELI_MULTICAST, &message), EAGAIN));
    neli_host_close(host);
}

const struct test tests[] = {
    TEST(a_handle_that_is_closed_unread),
    TEST(a_handle_that_is_closed_after_a_loss),
    TEST(a_number_that_may_still_be_answered),
    TEST(a_dump_that_is_broken_off),
    TEST(a_dump_by_one_bit),
    TEST(what_nobody_reads_is_not_kept),
    TEST(an_echo_reaches_its_request),
    TEST(a_loss_stands_where_it_came),
    TEST(each_request_has_its_own_fault),
    TEST(a_picture_is_right_after_a_storm),
    TEST(a_picture_by_a_larger_buffer),
    TEST(a_wait_has_an_end),
    TEST(a_wait_has_an_end_while_more_arrives),
    TEST(a_wait_is_stopped),
    TEST(what_was_not_asked_for_ends_nothing),
    TEST(what_would_block_is_sent_later),
    TEST(an_error_with_any_code),
    TEST(a_padding_that_was_left_out),
    TEST(a_socket_that_is_gone),
    TEST(a_request_of_many_bytes),
    TEST(memory_that_is_refused_once),
    TEST(memory_that_is_refused_to_a_loss),
    TEST(memory_that_is_refused_to_a_resync),
    TEST(an_item_without_memory),
    {0},
};
