/* Times a message through a session beside one through the router, each read where it is kept: one a datagram, for so
 * many requests in turn, and 32 in a datagram of one request. What is read is counted; the driver ends with status 1 where
 * a count is wrong, and with 2 where the session takes more than 1.2 times the router's time. */
#include "neli.h"
#include <stdbool.h>
#include <stdint.h>
#include <stdio.h>
#include <stdlib.h>
#include <string.h>
#include <time.h>

#ifndef ROUNDS
#define ROUNDS 3
#endif

enum { MESSAGES = 1000000, BATCH = 1000, ITEMS = 32, LENGTH = 64 };

/* How many hundredths of the router's time the session may take. */
enum { MOST = 120 };

static void fail(const char *what) {
    fprintf(stderr, "session: %s\n", what);
    exit(1);
}

/* The processor time of this process, in nanoseconds. */
static double now(void) {
    struct timespec time;
    clock_gettime(CLOCK_PROCESS_CPUTIME_ID, &time);
    return time.tv_sec * 1e9 + time.tv_nsec;
}

/* A message of type 16 with flag MULTI, for this number. */
static void write_message(uint8_t *message, uint8_t length, uint32_t number) {
    static const uint8_t header[16] = {0, 0, 0, 0, 16, 0, 2, 0};
    memcpy(message, header, sizeof header);
    message[0] = length;
    memcpy(message + 8, &number, sizeof number);
}

/* ---- The router ---- */

struct routed {
    struct neli_router router;
    size_t *handles;
};

static void open_router(struct routed *routed, unsigned count) {
    if (neli_router_new(&routed->router, 0) != NELI_OK) fail("no router");
    for (unsigned i = 0; i < count; i++) {
        struct neli_sent sent;
        uint8_t out[16];
        if (neli_router_send(&routed->router, 16, 0, NULL, 0, out, sizeof out, &sent) != NELI_OK) fail("no handle");
        routed->handles[i] = sent.handle;
    }
}

/* Hands in a datagram, and reads what waits for these handles, as many messages each. */
static unsigned route(struct routed *routed, unsigned open, unsigned from, unsigned batch, uint8_t *datagram,
                      size_t length) {
    unsigned items = 0;
    for (unsigned k = from; k < from + batch; k++) {
        if (length == 16) write_message(datagram, 16, k % open);
        if (neli_router_datagram(&routed->router, datagram, length, NULL, 0) != NELI_OK) fail("a datagram is refused");
    }
    for (unsigned k = from; k < from + batch; k++) {
        struct neli_lent lent;
        while (neli_router_lend(&routed->router, routed->handles[k % open], &lent) == NELI_ITEM) {
            items += lent.message.length >= 16;
            neli_router_pass(&routed->router, routed->handles[k % open]);
        }
    }
    return items;
}

/* ---- The session ---- */

struct seated {
    struct neli_session session;
    uint32_t *numbers;
};

static void open_session(struct seated *seated, unsigned count) {
    const uint8_t *bytes;
    size_t length;
    if (neli_session_new(&seated->session, 16, 0, false) != NELI_OK) fail("no session");
    for (unsigned i = 0; i < count; i++) {
        if (neli_session_send(&seated->session, 16, 4, NULL, 0, &seated->numbers[i]) != NELI_OK) fail("no request");
        if (neli_session_outgoing(&seated->session, &bytes, &length) != NELI_ITEM) fail("a request does not go out");
        neli_session_sent(&seated->session);
    }
}

static unsigned seat(struct seated *seated, unsigned open, unsigned from, unsigned batch, uint8_t *datagram,
                     size_t length) {
    unsigned items = 0;
    size_t taken;
    for (unsigned k = from; k < from + batch; k++) {
        if (length == 16) write_message(datagram, 16, seated->numbers[k % open]);
        if (neli_session_receive(&seated->session, datagram, length, 0, false, &taken) != NELI_OK)
            fail("a datagram is refused");
    }
    for (unsigned k = from; k < from + batch; k++) {
        struct neli_lent lent;
        uint32_t number = seated->numbers[k % open];
        while (neli_session_next(&seated->session, NELI_READER_REQUEST, number, &lent) == NELI_ITEM) {
            items += lent.message.length >= 16;
            neli_session_pass(&seated->session, NELI_READER_REQUEST, number);
        }
    }
    return items;
}

/* ---- The table ---- */

/* A line: the time of a message by both, in the best of some rounds. Returns whether the target is met. */
static bool compare(unsigned open, unsigned in_datagram) {
    uint8_t datagram[ITEMS * LENGTH];
    struct routed routed = {NELI_ROUTER_CLOSED, calloc(open, sizeof(size_t))};
    struct seated seated = {NELI_SESSION_CLOSED, calloc(open, sizeof(uint32_t))};
    size_t length = in_datagram == 1 ? 16 : in_datagram * LENGTH;
    double by_router = 0, by_session = 0;
    if (routed.handles == NULL || seated.numbers == NULL) fail("no memory");
    open_router(&routed, open);
    open_session(&seated, open);
    for (int round = 0; round < ROUNDS; round++) {
        unsigned items = 0, batch = in_datagram == 1 ? BATCH : 1, count = MESSAGES / in_datagram;
        for (unsigned i = 0; i < in_datagram; i++) write_message(datagram + i * LENGTH % length, LENGTH, 0);
        double start = now();
        for (unsigned i = 0; i < count; i += batch) items += route(&routed, open, i, batch, datagram, length);
        double middle = now();
        for (unsigned i = 0; i < in_datagram; i++) memcpy(datagram + i * LENGTH % length + 8, seated.numbers, 4);
        double again = now();
        for (unsigned i = 0; i < count; i += batch) items += seat(&seated, open, i, batch, datagram, length);
        double end = now();
        if (items != 2 * count * in_datagram) fail("not each message was read once");
        if (round == 0 || middle - start < by_router) by_router = middle - start;
        if (round == 0 || end - again < by_session) by_session = end - again;
    }
    printf("%8u %14u %12.0f ns %12.0f ns %8.2f\n", open, in_datagram, by_router / MESSAGES, by_session / MESSAGES,
           by_session / by_router);
    neli_router_free(&routed.router);
    neli_session_free(&seated.session);
    free(routed.handles);
    free(seated.numbers);
    return by_session * 100 <= by_router * MOST;
}

int main(void) {
    bool is_met = true;
    puts("    open  in a datagram   the router: a message   the session   times");
    for (unsigned open = 1; open <= 100000; open *= 10) is_met = compare(open, 1) && is_met;
    is_met = compare(1, ITEMS) && is_met;
    return is_met ? 0 : 2;
}
