/* Items that are lent, on the kernel of this machine. */
#include "testing.h"
#include <errno.h>
#include <linux/rtnetlink.h>
#include <string.h>

/* So many pairs of links are listed in several datagrams. */
#define MANY 60

/* The lent item is the message that was copied: its header, and its payload. */
static void want_same(const struct neli_host *host, const struct neli_message *message, const struct neli_lent *lent) {
    WANT(lent->message.length == message->length && lent->message.type == message->type);
    WANT(lent->message.flags == message->flags && lent->message.number == message->number);
    WANT(lent->message.port == message->port && lent->length == message->payload_length);
    WANT(lent->message.payload == 0 && lent->message.payload_length == lent->length);
    WANT(memcmp(lent->bytes, neli_host_item(host) + message->payload, lent->length) == 0);
}

static void lent_links_are_those_that_are_read(void) {
    struct neli_host *host = route_host(false);
    struct neli_verdict verdict;
    struct neli_message message;
    struct neli_lent lent;
    int32_t code;
    int links = 0;
    make_pairs(host, MANY);
    size_t dump = send_dump(host);
    while ((code = neli_host_lend(host, dump, &lent)) == NELI_ITEM) {
        struct neli_lent again;
        WANT(neli_host_lend(host, dump, &again) == NELI_ITEM && again.bytes == lent.bytes);
        links += lent.message.type == RTM_NEWLINK;
        WANT(neli_host_verdict(host, dump, &verdict) == NELI_WAITS && neli_host_pass(host, dump) == NELI_OK);
    }
    WANT(code == NELI_END && links == 2 * MANY + 1);
    WANT(neli_host_verdict(host, dump, &verdict) == NELI_OK && neli_host_pass(host, dump) == NELI_OK);
    WANT(neli_host_close_request(host, dump) == NELI_OK);
    WANT(neli_host_lend(host, dump, &lent) == NELI_HANDLE && neli_host_pass(host, dump) == NELI_HANDLE);
    WANT(neli_host_lend(host, NELI_HOST_UNASKED, &lent) == NELI_HANDLE);
    /* What is lent is read next. */
    dump = send_dump(host);
    while ((code = neli_host_lend(host, dump, &lent)) == NELI_ITEM) {
        uint8_t bytes[8192];
        WANT(lent.length <= sizeof bytes);
        memcpy(bytes, lent.bytes, lent.length);
        WANT(neli_host_next(host, dump, &message) == NELI_ITEM);
        lent.bytes = bytes;
        want_same(host, &message, &lent);
    }
    WANT(code == NELI_END);
    neli_host_close(host);
}

static void a_lent_refusal(void) {
    struct neli_host *host = route_host(false);
    struct neli_verdict verdict;
    struct neli_answer answer;
    struct neli_lent lent;
    size_t none = send_question(host, 4711), loopback = send_question(host, 1);
    WANT(neli_host_lend(host, none, &lent) == NELI_KERNEL_ERROR && lent.error == -ENODEV);
    WANT(neli_get_answer(lent.bytes, lent.length, &lent.message, &answer) == NELI_OK && answer.code == -ENODEV);
    WANT(neli_host_pass(host, none) == NELI_OK && neli_host_lend(host, none, &lent) == NELI_END);
    WANT(neli_host_verdict(host, none, &verdict) == NELI_KERNEL_ERROR && verdict.error == -ENODEV);
    want_loopback(host, loopback);
    neli_host_close(host);
}

/* The index of the link that is lent for groups next, which is passed. */
static int next_notified(struct neli_host *host, uint16_t type) {
    struct neli_lent lent;
    struct ifinfomsg link;
    WANT(neli_host_lend(host, NELI_MULTICAST, &lent) == NELI_ITEM && lent.message.type == type);
    WANT(lent.length >= sizeof link);
    memcpy(&link, lent.bytes, sizeof link);
    WANT(neli_host_pass(host, NELI_MULTICAST) == NELI_OK);
    return link.ifi_index;
}

static void notifications_are_lent(void) {
    struct neli_host *other = route_host(false), *host = route_host(true);
    struct neli_lent lent;
    set_short_wait(host);
    set_loopback(other, true);
    WANT(next_notified(host, RTM_NEWLINK) == 1);
    WANT(neli_host_lend(host, NELI_MULTICAST, &lent) == NELI_LINK && is_over(host, NELI_LINK, EAGAIN));
    WANT(neli_host_pass(host, NELI_MULTICAST) == NELI_OK);
    WANT(neli_host_close_request(host, NELI_MULTICAST) == NELI_OK);
    WANT(neli_host_lend(host, NELI_MULTICAST, &lent) == NELI_HANDLE);
    WANT(neli_host_pass(host, NELI_MULTICAST) == NELI_HANDLE);
    neli_host_close(other);
    neli_host_close(host);
}

/* A loss is returned in its place, once, and what comes after it is lent. */
static void a_loss_among_what_is_lent(void) {
    struct neli_host *other = route_host(false), *host = route_host(true);
    struct neli_message message;
    struct neli_lent lent;
    int32_t code;
    int lost = 0;
    set_buffer(host, 1);
    set_short_wait(host);
    for (int i = 0; i < 100; i++) set_loopback(other, i % 2 == 0);
    while ((code = neli_host_lend(host, NELI_MULTICAST, &lent)) == NELI_ITEM || is_over(host, code, ENOBUFS)) {
        lost += code == NELI_LINK;
        if (code == NELI_ITEM) WANT(neli_host_pass(host, NELI_MULTICAST) == NELI_OK);
    }
    WANT(is_over(host, code, EAGAIN) && lost == 1);
    set_buffer(host, 1 << 20);
    set_loopback(other, true);
    WANT(neli_host_next(host, NELI_MULTICAST, &message) == NELI_ITEM);
    set_loopback(other, false);
    WANT(next_notified(host, RTM_NEWLINK) == 1);
    neli_host_close(other);
    neli_host_close(host);
}

/* An error message to groups is an item, and does not end them. */
static void an_error_to_groups_is_lent(void) {
    struct neli_host *host = route_host(true);
    static const int32_t error[5] = {-ENODEV, 16, 0, 0, 0};
    static const struct ifinfomsg link = {.ifi_index = 7};
    struct neli_answer answer;
    struct neli_lent lent;
    hand_in(host, NLMSG_ERROR, error, sizeof error);
    hand_in(host, RTM_DELLINK, &link, sizeof link);
    WANT(neli_host_lend(host, NELI_MULTICAST, &lent) == NELI_ITEM && lent.message.type == NLMSG_ERROR);
    WANT(neli_get_answer(lent.bytes, lent.length, &lent.message, &answer) == NELI_OK && answer.code == -ENODEV);
    WANT(neli_host_pass(host, NELI_MULTICAST) == NELI_OK);
    WANT(next_notified(host, RTM_DELLINK) == 7);
    neli_host_close(host);
}

const struct test tests[] = {
    TEST(lent_links_are_those_that_are_read),
    TEST(a_lent_refusal),
    TEST(notifications_are_lent),
    TEST(a_loss_among_what_is_lent),
    TEST(an_error_to_groups_is_lent),
    {0},
};
