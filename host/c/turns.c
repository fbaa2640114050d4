/* Requests that are sent without a pause, whose dumps take turns, and a loop over poll(2), on the kernel of this
 * machine. `turns sent_without_a_pause COUNT` does so COUNT times. */
#include "testing.h"
#include <errno.h>
#include <linux/if_addr.h>
#include <linux/rtnetlink.h>
#include <linux/sock_diag.h>
#include <poll.h>
#include <stdlib.h>
#include <string.h>
#include <sys/socket.h>
#include <time.h>

/* So many pairs of links are listed in many datagrams. */
#define MANY 150

/* Two dumps, three questions, and a batch of four are sent at a time. */
#define ALL 9

static const struct ifinfomsg loopback = {.ifi_index = 1}, none = {.ifi_index = 4711}, links;

static size_t send_addresses(struct neli_host *host) {
    static const struct ifaddrmsg addresses = {.ifa_family = AF_INET};
    size_t handle = 0;
    WANT(neli_host_send(host, RTM_GETADDR, NLM_F_DUMP, &addresses, sizeof addresses, &handle) == NELI_OK);
    return handle;
}

/* An answer has so many objects and is complete, or is the refusal of a link that is not there. */
static void want_answer(struct neli_host *host, size_t handle, int count) {
    struct neli_message message;
    struct neli_verdict verdict;
    int32_t code, last = count > 0 ? NELI_OK : NELI_KERNEL_ERROR;
    while ((code = neli_host_next(host, handle, &message)) == NELI_ITEM) count -= message.type >= NLMSG_MIN_TYPE;
    WANT(code == last && count == 0);
    WANT(neli_host_verdict(host, handle, &verdict) == last && verdict.error == (last == NELI_OK ? 0 : -ENODEV));
    WANT(neli_host_close_request(host, handle) == NELI_OK);
}

/* Nine links and an address are listed. The answers are read in any order. */
static void sent_without_a_pause(void) {
    static const int counts[ALL] = {9, 1, 1, 0, 1, 1, 0, 9, 1};
    struct neli_host *host = route_host(false);
    const struct neli_host_request batch[] = {{RTM_GETLINK, NLM_F_ACK, &loopback, sizeof loopback},
                                              {RTM_GETLINK, NLM_F_ACK, &none, sizeof none},
                                              {RTM_GETLINK, NLM_F_DUMP, &links, sizeof links},
                                              {RTM_GETLINK, NLM_F_ACK, &loopback, sizeof loopback}};
    set_loopback(host, true);
    make_pairs(host, 4);
    for (int i = 0; i < rounds; i++) {
        size_t handles[ALL];
        handles[0] = send_dump(host);
        handles[1] = send_addresses(host);
        handles[2] = send_question(host, 1);
        handles[3] = send_question(host, 4711);
        handles[4] = send_question(host, 1);
        WANT(neli_host_send_all(host, batch, 4, handles + 5) == NELI_OK);
        for (int j = 0; j < ALL; j++) {
            int at = (i + j * (1 + i % 2)) % ALL;
            want_answer(host, handles[at], counts[at]);
        }
    }
    WANT(in_use(host) == 0);
    neli_host_close(host);
}

/* While a dump runs, of which much is still to come, nothing is taken in by a send. */
static void a_send_takes_nothing_in(void) {
    struct neli_host *host = route_host(false);
    size_t dumps[20], question;
    make_pairs(host, MANY);
    for (int i = 0; i < 20; i++) dumps[i] = send_dump(host);
    question = send_question(host, 1);
    for (int i = 0; i < 20; i++) WANT(!neli_host_is_ready(host, dumps[i]));
    WANT(!neli_host_is_ready(host, question));
    for (int i = 20; i-- > 0;) want_answer(host, dumps[i], 2 * MANY + 1);
    want_loopback(host, question);
    neli_host_close(host);
}

/* Reads an item of a handle without a wait, if it has come; whether its answer has ended. */
static bool has_ended(struct neli_host *host, size_t handle, int *count) {
    struct neli_message message;
    struct neli_verdict verdict;
    int32_t code = neli_host_next(host, handle, &message);
    *count += code == NELI_ITEM && message.type >= NLMSG_MIN_TYPE;
    if (code == NELI_ITEM || is_over(host, code, EAGAIN)) return false;
    WANT(code == NELI_END && neli_host_verdict(host, handle, &verdict) == NELI_OK);
    WANT(neli_host_close_request(host, handle) == NELI_OK);
    return true;
}

/* A loop reads one item of each handle at a time, and sleeps only if none is ready. */
static void a_loop_that_never_sleeps_on_an_item(void) {
    struct neli_host *host = route_host(false);
    struct pollfd socket = {.fd = neli_host_fd(host), .events = POLLIN};
    size_t handles[4];
    int counts[4] = {0}, left = 4, passed_over = 0;
    make_pairs(host, MANY);
    neli_host_set_wait(host, 0);
    handles[0] = send_dump(host);
    handles[1] = send_question(host, 1);
    handles[2] = send_dump(host);
    handles[3] = send_question(host, 1);
    while (left > 0) {
        bool is_ready = false;
        for (int i = 0; i < left; i++) is_ready |= neli_host_is_ready(host, handles[i]);
        int found = poll(&socket, 1, is_ready ? 0 : 3000);
        WANT(is_ready || found == 1);
        passed_over += found == 0;
        for (int i = left; i-- > 0;) {
            if (!has_ended(host, handles[i], &counts[i])) continue;
            WANT(counts[i] == 1 || counts[i] == 2 * MANY + 1);
            handles[i] = handles[--left];
            counts[i] = counts[left];
        }
    }
    /* By the socket alone it would have slept. */
    WANT(passed_over > 0 && neli_host_is_ready(host, handles[0]));
    WANT(!neli_host_is_ready(host, NELI_MULTICAST) && !neli_host_is_ready(NULL, NELI_MULTICAST));
    neli_host_close(host);
}

/* The same by what is ready, whatever it is: dumps, a question and notifications, in turn. */
static void a_loop_over_what_is_ready(void) {
    struct neli_host *host = route_host(true), *other = route_host(false);
    struct pollfd socket = {.fd = neli_host_fd(host), .events = POLLIN};
    struct neli_message message;
    make_pairs(other, MANY);
    WANT(neli_host_take_in(host) == NELI_OK);
    host_drop(host, NELI_READER_MULTICAST);
    size_t handle = 4711, handles[] = {send_dump(host), send_dump(host), send_question(host, 1)};
    int counts[3] = {0}, news = 0, ended = 0;
    WANT(!neli_host_ready(host, &handle) && handle == 4711 && !neli_host_ready(NULL, &handle));
    WANT(!neli_host_ready(host, NULL) && neli_host_take_in(NULL) == NELI_NULL);
    done(other, RTM_SETLINK, 0, link_body(1, true));
    while (ended < 3 || news == 0) {
        WANT(poll(&socket, 1, 3000) == 1);
        WANT(neli_host_take_in(host) == NELI_OK);
        while (neli_host_ready(host, &handle)) {
            int32_t code = neli_host_next(host, handle, &message);
            news += handle == NELI_MULTICAST;
            for (int i = 0; i < 3; i++) counts[i] += handle == handles[i] && code == NELI_ITEM;
            if (code != NELI_END) continue;
            WANT(neli_host_close_request(host, handle) == NELI_OK);
            ended++;
        }
    }
    /* Each dump has the links and its end, the question a link and an acknowledgement. */
    WANT(counts[0] == counts[1] && counts[0] == 2 * MANY + 2 && counts[2] == 2);
    WANT(neli_host_take_in(host) == NELI_OK && !neli_host_ready(host, &handle));
    neli_host_stop(host);
    done(other, RTM_SETLINK, 0, link_body(1, false));
    WANT(is_over(host, neli_host_take_in(host), ECANCELED) && neli_host_ready(host, &handle));
    WANT(handle == NELI_MULTICAST);
    neli_host_close(host);
    neli_host_close(other);
}

/* A change without an acknowledgement has ended once nothing is left, without a datagram. */
static void an_end_that_no_message_is(void) {
    struct neli_host *host = route_host(false);
    struct neli_message message;
    struct body body = link_body(1, true);
    size_t handle;
    neli_host_set_wait(host, 0);
    WANT(neli_host_send(host, RTM_SETLINK, 0, body.bytes, body.writer.end, &handle) == NELI_OK);
    WANT(!neli_host_is_ready(host, handle));
    WANT(is_over(host, neli_host_next(host, NELI_MULTICAST, &message), EAGAIN));
    WANT(neli_host_is_ready(host, handle));
    WANT(neli_host_next(host, handle, &message) == NELI_END);
    neli_host_close(host);
}

/* The bytes that the socket's buffer still takes. */
static uint32_t room_left(struct neli_host *host) {
    uint32_t info[SK_MEMINFO_VARS];
    socklen_t size = sizeof info;
    WANT(getsockopt(neli_host_fd(host), SOL_SOCKET, SO_MEMINFO, info, &size) == 0);
    return info[SK_MEMINFO_RCVBUF] - info[SK_MEMINFO_RMEM_ALLOC];
}

/* A dump that begins with a full buffer has the error ENOBUFS, its list and its end; the next dump waits for that. */
static void a_dump_that_goes_on_after_its_error(void) {
    enum { LEFT = 20000, MOST = 1000 };
    struct neli_host *host = route_host(false);
    struct neli_message message;
    struct neli_verdict verdict;
    size_t questions[MOST], first, second;
    int count = 0, links_listed = 0;
    want_loopback(host, send_question(host, 1));
    while (room_left(host) >= LEFT && count < MOST) questions[count++] = send_question(host, 1);
    first = send_dump(host);
    second = send_dump(host);
    WANT(neli_host_next(host, first, &message) == NELI_KERNEL_ERROR);
    WANT(neli_host_verdict(host, first, &verdict) == NELI_KERNEL_ERROR && verdict.error == -ENOBUFS);
    while (neli_host_next(host, first, &message) == NELI_ITEM) links_listed += message.type == RTM_NEWLINK;
    WANT(links_listed == 1 && neli_host_close_request(host, first) == NELI_OK);
    want_answer(host, second, 1);
    while (count > 0) want_loopback(host, questions[--count]);
    WANT(in_use(host) == 0);
    neli_host_close(host);
}

const struct test tests[] = {
    TEST(sent_without_a_pause),
    TEST(a_send_takes_nothing_in),
    TEST(a_loop_that_never_sleeps_on_an_item),
    TEST(a_loop_over_what_is_ready),
    TEST(an_end_that_no_message_is),
    TEST(a_dump_that_goes_on_after_its_error),
    {0},
};
