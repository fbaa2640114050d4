/* Whether an answer is complete: dumps that are complete, interrupted or fail. */
#include "testing.h"
#include <errno.h>
#include <linux/if_addr.h>
#include <linux/rtnetlink.h>
#include <stdio.h>
#include <string.h>
#include <sys/socket.h>

/* So many pairs of links are listed in several datagrams. */
#define MANY 150

/* Two hosts, and so many links that the second lists them in many datagrams, one of which fits its socket. */
static struct neli_host *with_many_links(struct neli_host **other) {
    struct neli_host *host = route_host(false);
    *other = route_host(false);
    make_pairs(*other, MANY);
    set_buffer(host, 8000);
    return host;
}

/* A link is removed between two receives: the kernel marks the first message of the datagram that it fills next. */
static void a_dump_that_is_interrupted(void) {
    struct neli_host *other, *host = with_many_links(&other);
    struct neli_message message;
    struct neli_verdict verdict;
    int32_t code;
    int links = 0, marked = 0;
    size_t dump = send_dump(host);
    WANT(neli_host_verdict(host, dump, &verdict) == NELI_WAITS);
    while ((code = neli_host_next(host, dump, &message)) == NELI_ITEM) {
        if (links++ == 0) remove_link(other, "pair140");
        bool is_end = message.type == NLMSG_DONE, is_marked = (message.flags & NLM_F_DUMP_INTR) != 0;
        WANT(!is_end || !is_marked);
        marked += is_marked;
        WANT(neli_host_verdict(host, dump, &verdict) == (marked > 0 ? NELI_INTERRUPTED : NELI_WAITS));
    }
    WANT(code == NELI_END && marked == 1);
    WANT(neli_host_verdict(host, dump, &verdict) == NELI_INTERRUPTED && verdict.error == 0 && verdict.filtered == 0);
    WANT(neli_host_close_request(host, dump) == NELI_OK);
    WANT(neli_host_verdict(host, dump, &verdict) == NELI_HANDLE);
    neli_host_close(other);
    neli_host_close(host);
}

/* A list whose links are counted; one is removed each time that it begins, so many times. */
struct listing {
    struct neli_host *other;
    int begun, count, removals;
};

static void count_link(const struct neli_host *host, const struct neli_message *message, void *list) {
    struct listing *listing = list;
    char name[16];
    (void)host;
    if (message == NULL) {
        listing->begun++;
        listing->count = 0;
    } else if (listing->count++ == 0 && listing->begun <= listing->removals) {
        snprintf(name, sizeof name, "pair%d", MANY - listing->begun);
        remove_link(listing->other, name);
    }
}

/* Requests all links. */
static int32_t count_all(struct neli_host *host, int times, struct listing *listing) {
    static const struct ifinfomsg all;
    struct neli_message last;
    struct neli_dump dump = {.type = RTM_GETLINK, .body = &all, .length = sizeof all, .times = times,
                             .take = count_link};
    dump.list = listing;
    listing->begun = 0;
    return neli_host_dump(host, &dump, &last);
}

static void a_dump_that_is_repeated(void) {
    struct neli_host *other, *host = with_many_links(&other);
    struct listing listing = {.other = other};
    WANT(count_all(host, 3, &listing) == NELI_OK && listing.begun == 1 && listing.count == 2 * MANY + 1);
    listing.removals = 1;
    WANT(count_all(host, 3, &listing) == NELI_OK && listing.begun == 2 && listing.count == 2 * MANY - 1);
    done(other, RTM_NEWLINK, NLM_F_CREATE | NLM_F_EXCL, pair("pair149", "peer149"));
    listing.removals = 3;
    WANT(count_all(host, 3, &listing) == NELI_INTERRUPTED && listing.begun == 3 && listing.count > 2 * MANY - 10);
    WANT(in_use(host) == 0);
    neli_host_close(other);
    neli_host_close(host);
}

/* Requests the addresses of one link. Where the kernel filters a list each address states it. */
static int32_t addresses_of(struct neli_host *host, uint32_t index, bool is_filtered, struct neli_verdict *verdict,
                            int *count) {
    struct ifaddrmsg of = {.ifa_family = AF_INET, .ifa_index = index};
    struct neli_message message;
    size_t handle;
    int32_t code;
    *count = 0;
    WANT(neli_host_send(host, RTM_GETADDR, NLM_F_DUMP, &of, sizeof of, &handle) == NELI_OK);
    while ((code = neli_host_next(host, handle, &message)) == NELI_ITEM) {
        if (message.type != RTM_NEWADDR) continue;
        WANT(((message.flags & NLM_F_DUMP_FILTERED) != 0) == is_filtered);
        (*count)++;
    }
    WANT(code == NELI_END);
    code = neli_host_verdict(host, handle, verdict);
    WANT(neli_host_close_request(host, handle) == NELI_OK);
    return code;
}

static void ignore(const struct neli_host *host, const struct neli_message *message, void *list) {
    (void)host, (void)message, (void)list;
}

/* The kernel ends the list of a missing link with NLMSG_DONE and ENODEV, if it checks the index. */
static void a_dump_that_fails_at_its_end(void) {
    struct neli_host *host = route_host(false);
    struct ifaddrmsg of = {.ifa_family = AF_INET, .ifa_index = 4711};
    struct neli_dump dump = {.type = RTM_GETADDR, .body = &of, .length = sizeof of, .times = 3, .take = ignore};
    struct neli_message last;
    struct neli_verdict verdict;
    char text[64];
    int count;
    set_loopback(host, true);
    WANT(addresses_of(host, 4711, false, &verdict, &count) == NELI_OK && count == 1 && verdict.filtered == 0);
    WANT(link_set_strict(&host->link) == NELI_OK);
    WANT(addresses_of(host, 1, true, &verdict, &count) == NELI_OK && count == 1 && verdict.filtered == 1);
    WANT(addresses_of(host, 4711, true, &verdict, &count) == NELI_KERNEL_ERROR);
    WANT(count == 0 && verdict.error == -ENODEV);
    WANT(neli_host_dump(host, &dump, &last) == NELI_KERNEL_ERROR && last.type == NLMSG_DONE);
    neli_host_explain(host, NELI_KERNEL_ERROR, &last, text, sizeof text);
    WANT(strcmp(text, "No such device") == 0);
    neli_host_close(host);
}

/* A request that is no dump: done, refused, and one that waits. */
static void other_answers(void) {
    struct neli_host *host = route_host(false);
    struct neli_message message;
    struct neli_verdict verdict;
    size_t there = send_question(host, 1), not_there = send_question(host, 4711);
    WANT(neli_host_next(host, there, &message) == NELI_ITEM && neli_host_verdict(host, there, &verdict) == NELI_WAITS);
    WANT(neli_host_next(host, there, &message) == NELI_ITEM && neli_host_verdict(host, there, &verdict) == NELI_OK);
    WANT(neli_host_next(host, there, &message) == NELI_END && neli_host_verdict(host, there, &verdict) == NELI_OK);
    WANT(neli_host_next(host, not_there, &message) == NELI_KERNEL_ERROR);
    WANT(neli_host_verdict(host, not_there, &verdict) == NELI_KERNEL_ERROR && verdict.error == -ENODEV);
    WANT(neli_host_verdict(host, NELI_MULTICAST, &verdict) == NELI_WAITS);
    neli_host_close(host);
}

/* Linux does not answer a dump of routing without its header (rtnetlink_rcv_msg), and that is no empty list. */
static void a_dump_that_is_not_answered(void) {
    struct neli_host *host = route_host(false);
    struct neli_dump dump = {.type = RTM_GETLINK, .times = 3, .take = ignore};
    struct neli_message last;
    WANT(neli_host_dump(host, &dump, &last) == NELI_UNENDED);
    neli_host_close(host);
}

const struct test tests[] = {
    TEST(a_dump_that_is_interrupted),
    TEST(a_dump_that_is_repeated),
    TEST(a_dump_that_fails_at_its_end),
    TEST(a_dump_that_is_not_answered),
    TEST(other_answers),
    {0},
};
