/* Several requests in one datagram. */
#include "refused.h"
#include "testing.h"
#include <errno.h>
#include <linux/rtnetlink.h>
#include <stdlib.h>
#include <string.h>

static const struct ifinfomsg loopback = {.ifi_index = 1}, none = {.ifi_index = 4711}, all;

/* A request for a link that is acknowledged. */
static struct neli_host_request question(const struct ifinfomsg *link) {
    return (struct neli_host_request){RTM_GETLINK, NLM_F_ACK, link, sizeof *link};
}

static struct neli_host_request dump_of_links(void) {
    return (struct neli_host_request){RTM_GETLINK, NLM_F_DUMP, &all, sizeof all};
}

static void want_no_such_link(struct neli_host *host, size_t handle) {
    struct neli_message message;
    struct neli_verdict verdict;
    WANT(neli_host_next(host, handle, &message) == NELI_KERNEL_ERROR);
    WANT(neli_host_verdict(host, handle, &verdict) == NELI_KERNEL_ERROR && verdict.error == -ENODEV);
    WANT(neli_host_close_request(host, handle) == NELI_OK);
}

static void each_has_its_answer(void) {
    struct neli_host *host = route_host(false);
    struct neli_host_request requests[] = {question(&loopback), question(&none), dump_of_links(), question(&loopback)};
    size_t handles[4];
    for (int i = 0; i < 3; i++) {
        WANT(neli_host_send_all(host, requests, 4, handles) == NELI_OK);
        want_loopback(host, handles[3]);
        want_no_such_link(host, handles[1]);
        WANT(count_links(host, handles[2]) == 1);
        want_loopback(host, handles[0]);
    }
    WANT(neli_host_send_all(host, requests, 0, NULL) == NELI_OK);
    neli_host_close(host);
}

/* The kernel performs the others, and messages for a closed one have no receiver. */
static void some_are_closed_unread(void) {
    struct neli_host *host = route_host(false);
    struct neli_host_request requests[] = {question(&loopback), question(&none), question(&loopback)};
    size_t handles[3];
    WANT(neli_host_send_all(host, requests, 3, handles) == NELI_OK);
    WANT(neli_host_close_request(host, handles[0]) == NELI_OK);
    WANT(neli_host_close_request(host, handles[1]) == NELI_OK);
    want_loopback(host, handles[2]);
    want_loopback(host, send_question(host, 1));
    neli_host_close(host);
}

static void a_refusal_sends_none(void) {
    struct neli_host *host = route_host(false);
    struct neli_host_request dumps[] = {dump_of_links(), question(&loopback), dump_of_links()};
    size_t handles[3], open = send_question(host, 1);
    WANT(neli_host_send_all(host, dumps, 3, handles) == NELI_KIND);
    dumps[0].flags = NLM_F_ROOT;
    dumps[2].flags = NLM_F_MATCH;
    WANT(neli_host_send_all(host, dumps, 3, handles) == NELI_KIND);
    WANT(in_use(host) == 1);
    want_loopback(host, open);
    want_loopback(host, send_question(host, 1));
    neli_host_close(host);
}

/* Numbers that are in use are skipped. */
static void their_numbers_are_free(void) {
    struct neli_host *host = route_host(false);
    struct neli_host_request requests[] = {question(&loopback), question(&none), question(&loopback)};
    size_t handles[3], open = send_question(host, 1); /* which has the number 0 */
    WANT(neli_session_set_number(&host->session, UINT32_MAX - 1) == NELI_OK);
    WANT(neli_host_send_all(host, requests, 3, handles) == NELI_OK);
    want_loopback(host, handles[2]);
    want_loopback(host, handles[0]);
    want_no_such_link(host, handles[1]);
    want_loopback(host, open);
    neli_host_close(host);
}

/* Requests of 40000 bytes, by an attribute of a number that the kernel does not know and skips. */
static void they_may_be_long(void) {
    enum { LENGTH = 40000 };
    struct neli_host *host = route_host(false);
    struct neli_writer writer = {0};
    uint8_t *body = malloc(LENGTH);
    uint8_t *payload = calloc(1, LENGTH);
    size_t handles[3];
    WANT(body != NULL && payload != NULL);
    WANT(neli_put_bytes(body, LENGTH, &writer, &loopback, sizeof loopback) == NELI_OK);
    WANT(neli_put_attribute(body, LENGTH, &writer, 0x3fff, payload, LENGTH - writer.end - 4) == NELI_OK);
    struct neli_host_request requests[] = {{RTM_GETLINK, NLM_F_ACK, body, writer.end}, question(&none),
                                           {RTM_GETLINK, NLM_F_ACK, body, writer.end}};
    WANT(neli_host_send_all(host, requests, 3, handles) == NELI_OK);
    want_loopback(host, handles[2]);
    want_no_such_link(host, handles[1]);
    want_loopback(host, handles[0]);
    free(body);
    free(payload);
    neli_host_close(host);
}

/* The kernel refuses a datagram that exceeds its send buffer, and nothing is open then. */
static void they_may_be_too_long(void) {
    enum { LENGTH = 1 << 20 };
    struct neli_host *host = route_host(false);
    uint8_t *body = calloc(1, LENGTH);
    size_t handles[2], one;
    WANT(body != NULL);
    struct neli_host_request requests[] = {question(&loopback), {RTM_GETLINK, NLM_F_ACK, body, LENGTH}};
    for (int i = 0; i < 3; i++) {
        WANT(is_over(host, neli_host_send_all(host, requests, 2, handles), EMSGSIZE));
        WANT(is_over(host, neli_host_send(host, RTM_GETLINK, NLM_F_ACK, body, LENGTH, &one), EMSGSIZE));
        WANT(in_use(host) == 0);
    }
    want_loopback(host, send_question(host, 1));
    free(body);
    neli_host_close(host);
}

/* ---- Refused memory ---- */

/* Whichever allocation is refused, all are sent or none, and then the same call can be repeated. One that makes look-ups
 * faster may be refused without harm. */
static void memory_that_is_refused(void) {
    struct neli_host_request requests[] = {question(&loopback), question(&none), question(&loopback)};
    size_t handles[3];
    unsigned refusals = 0;
    bool was_refused = true;
    for (unsigned k = 1; was_refused; k++) {
        struct neli_host *host = route_host(false);
        WANT(k < 200);
        left_to_refusal = k;
        int32_t code = neli_host_send_all(host, requests, 3, handles);
        was_refused = left_to_refusal == 0;
        left_to_refusal = 0;
        bool ran_out = code == NELI_MEMORY;
        WANT(code == NELI_OK || (was_refused && ran_out));
        WANT(in_use(host) == (ran_out ? 0 : 3));
        refusals += ran_out;
        if (ran_out) WANT(neli_host_send_all(host, requests, 3, handles) == NELI_OK);
        want_loopback(host, handles[2]);
        want_no_such_link(host, handles[1]);
        want_loopback(host, handles[0]);
        neli_host_close(host);
    }
    WANT(refusals > 3);
}

const struct test tests[] = {
    TEST(each_has_its_answer),
    TEST(some_are_closed_unread),
    TEST(a_refusal_sends_none),
    TEST(their_numbers_are_free),
    TEST(they_may_be_long),
    TEST(they_may_be_too_long),
    TEST(memory_that_is_refused),
    {0},
};
