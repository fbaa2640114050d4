/* Dumps as families and protocols differ in them, on the kernel of this machine: by one bit of NLM_F_DUMP, with an
 * acknowledgement requested, and without NLM_F_MULTI. */
#include "testing.h"
#include <arpa/inet.h>
#include <linux/genetlink.h>
#include <linux/netfilter.h>
#include <linux/netfilter/nf_tables.h>
#include <linux/netfilter/nfnetlink.h>
#include <linux/rtnetlink.h>
#include <stdio.h>
#include <string.h>

/* So many pairs of links are listed in several datagrams, also by the family netdev. */
#define MANY 150

/* The command that lists the devices, of linux/netdev.h. */
#define DEV_GET 1

/* A dump that is read to its end and closed has so many messages of this type, and is complete. */
static void want_whole(struct neli_host *host, size_t dump, uint16_t type, int count) {
    struct neli_message message;
    struct neli_verdict verdict;
    int32_t code;
    while ((code = neli_host_next(host, dump, &message)) == NELI_ITEM) count -= message.type == type;
    WANT(code == NELI_END && count == 0);
    WANT(neli_host_verdict(host, dump, &verdict) == NELI_OK);
    WANT(neli_host_close_request(host, dump) == NELI_OK);
}

static size_t sent(struct neli_host *host, uint16_t type, uint16_t flags, const void *body, size_t length) {
    size_t handle = 0;
    WANT(neli_host_send(host, type, flags, body, length, &handle) == NELI_OK);
    return handle;
}

/* The kernel acknowledges no dump. Its last message is the end, by which the next one can begin. */
static void a_dump_whose_acknowledgement_never_comes(void) {
    static const uint16_t flags[] = {NLM_F_DUMP | NLM_F_ACK, NLM_F_ROOT | NLM_F_ACK, NLM_F_MATCH | NLM_F_ACK};
    struct neli_host *host = route_host(false);
    struct ifinfomsg all = {0};
    make_pairs(host, MANY);
    for (int i = 0; i < 3; i++) {
        size_t unread = sent(host, RTM_GETLINK, flags[i], &all, sizeof all);
        WANT(neli_host_close_request(host, unread) == NELI_OK);
        size_t first = sent(host, RTM_GETLINK, flags[i], &all, sizeof all);
        size_t second = sent(host, RTM_GETLINK, flags[i], &all, sizeof all);
        want_whole(host, second, RTM_NEWLINK, 2 * MANY + 1);
        want_whole(host, first, RTM_NEWLINK, 2 * MANY + 1);
    }
    neli_host_close(host);
}

/* The number of a family of generic netlink, or 0. */
static uint16_t family_of(struct neli_host *host, const char *name) {
    struct genlmsghdr get = {.cmd = CTRL_CMD_GETFAMILY, .version = 2};
    struct body body = {0};
    struct neli_message message;
    struct neli_walk walk;
    struct neli_attribute found;
    uint16_t number = 0;
    put(&body, &get, sizeof get);
    put_text(&body, CTRL_ATTR_FAMILY_NAME, name);
    size_t handle = sent(host, GENL_ID_CTRL, 0, body.bytes, body.writer.end);
    if (neli_host_next(host, handle, &message) == NELI_ITEM) {
        WANT(neli_attributes_of(&message, sizeof get, &walk) == NELI_OK);
        WANT(neli_host_find(host, &walk, CTRL_ATTR_FAMILY_ID, &found));
        WANT(neli_get_u16(neli_host_item(host) + found.payload, found.payload_length, 0, &number) == NELI_OK);
    }
    WANT(neli_host_close_request(host, handle) == NELI_OK);
    return number;
}

/* The messages of the family netdev lack NLM_F_MULTI. */
static void a_dump_whose_messages_are_no_parts(void) {
    static const struct genlmsghdr all = {.cmd = DEV_GET, .version = 1};
    struct neli_host *maker = route_host(false), *host;
    struct neli_message message;
    open_or_fail(&host, NETLINK_GENERIC, NULL, 0);
    uint16_t family = family_of(host, "netdev");
    if (family == 0) {
        puts("a_dump_whose_messages_are_no_parts: not run, this kernel has no family netdev");
        return;
    }
    make_pairs(maker, MANY);
    want_whole(host, sent(host, family, NLM_F_DUMP, &all, sizeof all), family, 2 * MANY + 1);
    want_whole(host, sent(host, family, NLM_F_DUMP | NLM_F_ACK, &all, sizeof all), family, 2 * MANY + 1);
    size_t broken_off = sent(host, family, NLM_F_DUMP, &all, sizeof all);
    size_t other = sent(host, family, NLM_F_DUMP, &all, sizeof all);
    WANT(neli_host_next(host, broken_off, &message) == NELI_ITEM);
    WANT(neli_host_close_request(host, broken_off) == NELI_OK);
    want_whole(host, other, family, 2 * MANY + 1);
    WANT(in_use(host) == 0);
    neli_host_close(maker);
    neli_host_close(host);
}

/* A body of netfilter with the name of a table, or with none. */
static struct body table(uint16_t resource, const char *name) {
    struct nfgenmsg head = {.nfgen_family = NFPROTO_IPV4, .res_id = resource};
    struct body body = {0};
    put(&body, &head, sizeof head);
    if (name != NULL) put_text(&body, NFTA_TABLE_NAME, name);
    return body;
}

/* Makes three tables by a batch: false if the kernel has none. */
static bool are_tables_made(struct neli_host *host) {
    uint16_t subsystem = (uint16_t)(NFNL_SUBSYS_NFTABLES << 8), resource = htons(NFNL_SUBSYS_NFTABLES);
    struct body ends = table(resource, NULL), one = table(0, "one"), two = table(0, "two"), three = table(0, "three");
    const struct neli_host_request batch[] = {
        {NFNL_MSG_BATCH_BEGIN, 0, ends.bytes, ends.writer.end},
        {subsystem | NFT_MSG_NEWTABLE, NLM_F_CREATE, one.bytes, one.writer.end},
        {subsystem | NFT_MSG_NEWTABLE, NLM_F_CREATE, two.bytes, two.writer.end},
        {subsystem | NFT_MSG_NEWTABLE, NLM_F_CREATE | NLM_F_ACK, three.bytes, three.writer.end},
        {NFNL_MSG_BATCH_END, 0, ends.bytes, ends.writer.end},
    };
    size_t handles[5];
    struct neli_message message;
    WANT(neli_host_send_all(host, batch, 5, handles) == NELI_OK);
    int32_t code = neli_host_next(host, handles[3], &message);
    for (int i = 0; i < 5; i++) WANT(neli_host_close_request(host, handles[i]) == NELI_OK);
    return code == NELI_ITEM;
}

/* Netfilter begins a dump for either bit of NLM_F_DUMP. */
static void a_dump_of_netfilter_by_one_bit(void) {
    static const uint16_t flags[] = {NLM_F_ROOT, NLM_F_MATCH, NLM_F_ROOT | NLM_F_ACK, NLM_F_DUMP | NLM_F_ACK};
    uint16_t subsystem = (uint16_t)(NFNL_SUBSYS_NFTABLES << 8);
    struct neli_host *host;
    struct body all = table(0, NULL);
    open_or_fail(&host, NETLINK_NETFILTER, NULL, 0);
    set_short_wait(host);
    if (!are_tables_made(host)) {
        puts("a_dump_of_netfilter_by_one_bit: not run, this kernel has no nf_tables");
        return;
    }
    for (int i = 0; i < 4; i++) {
        size_t dump = sent(host, subsystem | NFT_MSG_GETTABLE, flags[i], all.bytes, all.writer.end);
        want_whole(host, dump, subsystem | NFT_MSG_NEWTABLE, 3);
    }
    neli_host_close(host);
}

const struct test tests[] = {
    TEST(a_dump_whose_acknowledgement_never_comes),
    TEST(a_dump_whose_messages_are_no_parts),
    TEST(a_dump_of_netfilter_by_one_bit),
    {0},
};
