/* The C library against the kernel of this machine. */
#include "testing.h"
#include <errno.h>
#include <linux/rtnetlink.h>
#include <string.h>
#include <sys/socket.h>

/* So many pairs of links are listed in several datagrams. */
#define MANY 60

/* One call for several attributes of a message returns those of single calls. */
static void want_same_attributes(const uint8_t *bytes, size_t length, const struct neli_message *message) {
    struct neli_walk walk, single;
    struct neli_attribute attributes[5], attribute;
    size_t count;
    int32_t code;
    WANT(neli_attributes_of(message, sizeof(struct ifinfomsg), &walk) == NELI_OK);
    single = walk;
    while ((code = neli_next_attributes(bytes, length, &walk, attributes, 5, &count)) == NELI_ITEM) {
        for (size_t i = 0; i < count; i++) {
            WANT(neli_next_attribute(bytes, length, &single, &attribute) == NELI_ITEM);
            WANT(memcmp(&attributes[i], &attribute, sizeof attribute) == 0);
        }
        WANT(walk.place == single.place && (count == 5 || walk.place == walk.end));
    }
    WANT(code == NELI_END && neli_next_attribute(bytes, length, &single, &attribute) == NELI_END);
}

/* And so of a datagram's messages. */
static void want_same_messages(const uint8_t *bytes, size_t length) {
    struct neli_walk walk = {0, length}, single = {0, length};
    struct neli_message messages[3], message;
    size_t count;
    int32_t code;
    while ((code = neli_next_messages(bytes, length, &walk, messages, 3, &count)) == NELI_ITEM) {
        for (size_t i = 0; i < count; i++) {
            WANT(neli_next_message(bytes, length, &single, &message) == NELI_ITEM);
            WANT(memcmp(&messages[i], &message, sizeof message) == 0);
            if (message.type == RTM_NEWLINK) want_same_attributes(bytes, length, &message);
        }
        WANT(walk.place == single.place && (count == 3 || walk.place == walk.end));
    }
    WANT(code == NELI_END && neli_next_message(bytes, length, &single, &message) == NELI_END);
}

static void a_dump_of_many_datagrams(void) {
    struct neli_host *host = route_host(false);
    struct ifinfomsg all = {0};
    size_t handle, taken;
    int datagrams = 0, links = 0;
    bool is_done = false;
    make_pairs(host, MANY);
    WANT(neli_host_send(host, RTM_GETLINK, NLM_F_DUMP, &all, sizeof all, &handle) == NELI_OK);
    while (!is_done) {
        struct neli_message message;
        struct neli_walk walk = {0};
        uint32_t group;
        int32_t code;
        WANT(neli_host_receive(host, &walk.end, &group) == NELI_OK && group == 0);
        size_t length = walk.end;
        want_same_messages(host->link.room, length);
        while ((code = neli_next_message(host->link.room, length, &walk, &message)) == NELI_ITEM) {
            links += message.type == RTM_NEWLINK;
            is_done |= message.type == NLMSG_DONE;
        }
        WANT(code == NELI_END);
        WANT(neli_session_receive(&host->session, host->link.room, length, 0, false, &taken) == NELI_OK);
        datagrams++;
    }
    WANT(datagrams > 2 && links == 2 * MANY + 1);
    WANT(count_links(host, handle) == 2 * MANY + 1);
    neli_host_close(host);
}

static void two_requests_in_the_other_order(void) {
    struct neli_host *host = route_host(false);
    struct neli_message message;
    struct neli_answer answer;
    size_t first = send_question(host, 1), second = send_question(host, 4711);
    WANT(neli_host_next(host, second, &message) == NELI_KERNEL_ERROR);
    WANT(neli_get_answer(host->item, host->item_length, &message, &answer) == NELI_OK && answer.code == -ENODEV);
    WANT(neli_host_next(host, second, &message) == NELI_END);
    want_loopback(host, first);
    neli_host_close(host);
}

static void a_refusal_with_text_and_offset(void) {
    struct neli_host *host = route_host(false);
    struct neli_message message;
    char text[256];
    struct body body = link_body(0, false);
    size_t info = begin_nest(&body, IFLA_LINKINFO);
    put_text(&body, IFLA_INFO_KIND, "nope");
    end_nest(&body, info);
    int32_t code = ask(host, RTM_NEWLINK, NLM_F_CREATE | NLM_F_EXCL, &body, &message);
    WANT(code == NELI_KERNEL_ERROR);
    neli_host_explain(host, code, &message, text, sizeof text);
    WANT(strcmp(text, "Operation not supported: Unknown device type") == 0);
    neli_host_explain(host, code, &message, text, 10);
    WANT(strcmp(text, "Operation") == 0);
    neli_host_explain(host, code, &message, text, 0);
    neli_host_explain(host, code, &message, NULL, 0);
    neli_host_explain(host, NELI_LINK, NULL, NULL, 0);
    neli_host_explain(NULL, NELI_SHORT, NULL, NULL, 0);
    WANT(strcmp(text, "Operation") == 0);

    /* The name takes 8 bytes after the headers, so that the other attribute lies at byte 40. */
    uint16_t mtu = 1500;
    body = link_body(1, false);
    put_text(&body, IFLA_IFNAME, "lo");
    put_attribute(&body, IFLA_MTU, &mtu, sizeof mtu);
    code = ask(host, RTM_SETLINK, 0, &body, &message);
    WANT(code == NELI_KERNEL_ERROR);
    neli_host_explain(host, code, &message, text, sizeof text);
    WANT(strstr(text, ", at byte 40 of the request") != NULL);
    neli_host_close(host);
}

/* A nest may be the first that stands in a body, and its header shorter than that of a message. */
static void a_route_whose_body_begins_with_a_nest(void) {
    struct neli_host *host = route_host(false);
    struct rtmsg route = {.rtm_family = AF_INET, .rtm_dst_len = 24, .rtm_table = RT_TABLE_MAIN,
                          .rtm_protocol = RTPROT_STATIC, .rtm_type = RTN_UNICAST};
    const uint8_t to[4] = {203, 0, 113, 0};
    struct body body = {0};
    struct neli_message message;
    struct neli_attribute found;
    struct neli_walk walk;
    uint32_t mtu = 0;
    set_loopback(host, true);
    put(&body, &route, sizeof route);
    size_t metrics = begin_nest(&body, RTA_METRICS);
    WANT(metrics == sizeof route && metrics < 16);
    WANT(neli_put_u32(body.bytes, sizeof body.bytes, &body.writer, RTAX_MTU, 1300) == NELI_OK);
    end_nest(&body, metrics);
    put_attribute(&body, RTA_DST, to, sizeof to);
    WANT(neli_put_u32(body.bytes, sizeof body.bytes, &body.writer, RTA_OIF, 1) == NELI_OK);
    done(host, RTM_NEWROUTE, NLM_F_CREATE | NLM_F_EXCL, body);
    size_t all = 0;
    route = (struct rtmsg){.rtm_family = AF_INET};
    WANT(neli_host_send(host, RTM_GETROUTE, NLM_F_DUMP, &route, sizeof route, &all) == NELI_OK);
    while (neli_host_next(host, all, &message) == NELI_ITEM) {
        if (message.type != RTM_NEWROUTE) continue;
        WANT(neli_attributes_of(&message, sizeof route, &walk) == NELI_OK);
        if (!neli_host_find(host, &walk, RTA_METRICS, &found)) continue;
        WANT(neli_attributes_in(&found, &walk) == NELI_OK && neli_host_find(host, &walk, RTAX_MTU, &found));
        WANT(neli_get_u32(neli_host_item(host) + found.payload, found.payload_length, 0, &mtu) == NELI_OK);
    }
    WANT(mtu == 1300);
    neli_host_close(host);
}

static void a_notification_while_a_dump_runs(void) {
    struct neli_host *other = route_host(false), *host = route_host(true);
    struct neli_message message;
    make_pairs(other, MANY);
    while (neli_host_next(host, NELI_MULTICAST, &message) == NELI_ITEM && message.type == RTM_NEWLINK) {
        struct ifinfomsg link;
        memcpy(&link, host->item + message.payload, sizeof link);
        if (link.ifi_index == 2 * MANY + 1) break;
    }
    size_t dump = send_dump(host);
    WANT(neli_host_next(host, dump, &message) == NELI_ITEM && message.type == RTM_NEWLINK);
    done(other, RTM_SETLINK, 0, link_body(1, true));
    WANT(count_links(host, dump) == 2 * MANY);
    WANT(neli_host_next(host, NELI_MULTICAST, &message) == NELI_ITEM && message.type == RTM_NEWLINK);
    neli_host_close(other);
    neli_host_close(host);
}

static void a_buffer_that_ran_over(void) {
    struct neli_host *other = route_host(false), *host = route_host(true);
    struct neli_message message;
    int32_t code;
    int lost = 0;
    set_buffer(host, 1);
    size_t waiting = send_question(host, 1);
    for (int i = 0; i < 100; i++) done(other, RTM_SETLINK, 0, link_body(1, i % 2 == 0));
    /* The open request gets the fault, or was answered before. */
    while ((code = neli_host_next(host, waiting, &message)) == NELI_ITEM) continue;
    WANT(code == NELI_END || (code == NELI_LINK && neli_host_fault(host) == ENOBUFS));
    WANT(neli_host_close_request(host, waiting) == NELI_OK);
    set_short_wait(host);
    while ((code = neli_host_next(host, NELI_MULTICAST, &message)) == NELI_ITEM ||
           (code == NELI_LINK && neli_host_fault(host) == ENOBUFS))
        lost += code == NELI_LINK;
    WANT(code == NELI_LINK && neli_host_fault(host) == EAGAIN && lost == 1);
    set_buffer(host, 1 << 20);
    WANT(count_links(host, send_dump(host)) == 1);
    done(other, RTM_SETLINK, 0, link_body(1, true));
    WANT(neli_host_next(host, NELI_MULTICAST, &message) == NELI_ITEM);
    neli_host_close(other);
    neli_host_close(host);
}

static void another_sender_is_passed_over(void) {
    struct neli_host *other = route_host(false), *host = route_host(true);
    struct neli_message message;
    struct ifinfomsg up = {.ifi_index = 1, .ifi_flags = 1, .ifi_change = 1};
    struct sockaddr_nl to = {.nl_family = AF_NETLINK, .nl_pid = host->link.port};
    struct neli_writer writer = {0};
    uint8_t forged[64];
    size_t open;
    set_short_wait(host);
    WANT(neli_host_send(host, RTM_SETLINK, 0, &up, sizeof up, &open) == NELI_OK);
    WANT(neli_begin_message(forged, sizeof forged, &writer, RTM_NEWLINK, 0, 0, host->link.port) == NELI_OK);
    WANT(neli_put_bytes(forged, sizeof forged, &writer, &up, sizeof up) == NELI_OK);
    WANT(neli_end_message(forged, sizeof forged, &writer) == NELI_OK);
    WANT(sendto(other->link.fd, forged, writer.end, 0, (struct sockaddr *)&to, sizeof to) == (ssize_t)writer.end);
    /* A request without ACK is not answered: it has ended once the socket was seen empty. */
    WANT(neli_host_next(host, open, &message) == NELI_END);
    WANT(neli_host_next(host, NELI_MULTICAST, &message) == NELI_ITEM && message.type == RTM_NEWLINK);
    neli_host_close(other);
    neli_host_close(host);
}

static void nothing_that_is_wrong_crosses(void) {
    struct neli_router router = NELI_ROUTER_CLOSED;
    struct neli_item item;
    struct neli_sent sent;
    uint8_t out[36];
    WANT(neli_router_read(&router, 0, &item) == NELI_STATE && neli_router_free(&router) == NELI_OK);
    WANT(neli_router_new(&router, 7) == NELI_OK && neli_router_new(&router, 7) == NELI_STATE);
    WANT(neli_router_send(&router, 18, NLM_F_DUMP, "17 bytes, or more", 17, out, 35, &sent) == NELI_ROOM);
    WANT(sent.length == 36);
    WANT(neli_router_send(&router, 18, NLM_F_DUMP, "17 bytes, or more", 17, out, 36, &sent) == NELI_OK);
    WANT(neli_router_read(&router, sent.handle, &item) == NELI_WAITS);
    WANT(neli_router_read(&router, sent.handle + 1, &item) == NELI_HANDLE);
    WANT(neli_router_read(&router, sent.handle, NULL) == NELI_NULL);
    WANT(neli_router_datagram(&router, NULL, 16, NULL, 0) == NELI_NULL);
    WANT(neli_router_datagram(&router, out, SIZE_MAX, NULL, 0) == NELI_NULL);
    WANT(neli_router_datagram(&router, NULL, 0, NULL, 0) == NELI_OK);
    WANT(neli_router_set_number(&router, 0) == NELI_OK);
    WANT(neli_router_send(&router, 18, NLM_F_DUMP, NULL, 0, out, 36, &sent) == NELI_IN_USE);
    WANT(neli_router_free(&router) == NELI_OK && neli_router_read(&router, 0, &item) == NELI_STATE);
}

static void take_nothing(const struct neli_host *host, const struct neli_message *message, void *list) {
    (void)host, (void)message, (void)list;
}

/* A null pointer is refused as the calls of neli.h refuse it. */
static void null_pointers_are_refused(void) {
    struct neli_host *host = route_host(false), *none = host;
    struct neli_host_request request = {RTM_GETLINK, 0, NULL, 16};
    struct neli_dump dump = {.type = RTM_GETLINK, .times = 1, .take = take_nothing};
    struct neli_message message = {0};
    struct neli_attribute attribute = {0};
    struct neli_verdict verdict;
    struct neli_lent lent;
    struct neli_walk walk = {0};
    struct ifinfomsg all = {0};
    uint32_t group = 0;
    size_t handle, length;
    char text[NELI_TEXT_SIZE];

    WANT(neli_host_open(NULL, 0, NULL, 0) == NELI_NULL);
    WANT(neli_host_open(&none, 0, NULL, 1) == NELI_NULL && none == NULL);
    WANT(neli_host_open(&none, 0, &group, SIZE_MAX) == NELI_NULL && none == NULL);
    neli_host_close(NULL);
    WANT(neli_host_fd(NULL) == -1 && neli_host_port(NULL) == 0 && neli_host_fault(NULL) == 0);
    neli_host_set_wait(NULL, 0);
    neli_host_set_ends_by_signals(NULL, true);
    neli_host_set_keeps_unasked(NULL, true);
    neli_host_stop(NULL);
    WANT(neli_host_set_strict(NULL) == NELI_NULL);
    WANT(neli_host_item(NULL) == NULL && neli_host_item_length(NULL) == 0 && neli_host_datagram(NULL) == NULL);

    WANT(neli_host_send(NULL, RTM_GETLINK, 0, &all, sizeof all, &handle) == NELI_NULL);
    WANT(neli_host_send(host, RTM_GETLINK, 0, NULL, sizeof all, &handle) == NELI_NULL);
    WANT(neli_host_send(host, RTM_GETLINK, 0, &all, SIZE_MAX, &handle) == NELI_NULL);
    WANT(neli_host_send(host, RTM_GETLINK, 0, &all, sizeof all, NULL) == NELI_NULL);
    WANT(neli_host_send_all(host, &request, 1, &handle) == NELI_NULL);
    request.length = 0;
    WANT(neli_host_send_all(NULL, &request, 1, &handle) == NELI_NULL);
    WANT(neli_host_send_all(host, NULL, 1, &handle) == NELI_NULL);
    WANT(neli_host_send_all(host, &request, 1, NULL) == NELI_NULL);
    WANT(neli_host_send_all(host, &request, SIZE_MAX, &handle) == NELI_NULL);
    WANT(neli_host_send_all(host, NULL, 0, NULL) == NELI_OK);

    WANT(neli_host_next(NULL, NELI_MULTICAST, &message) == NELI_NULL);
    WANT(neli_host_next(host, NELI_MULTICAST, NULL) == NELI_NULL);
    WANT(neli_host_lend(NULL, NELI_MULTICAST, &lent) == NELI_NULL);
    WANT(neli_host_lend(host, NELI_MULTICAST, NULL) == NELI_NULL);
    WANT(neli_host_pass(NULL, NELI_MULTICAST) == NELI_NULL);
    WANT(neli_host_verdict(NULL, NELI_MULTICAST, &verdict) == NELI_NULL);
    WANT(neli_host_verdict(host, NELI_MULTICAST, NULL) == NELI_NULL);
    WANT(neli_host_close_request(NULL, NELI_MULTICAST) == NELI_NULL);
    WANT(neli_host_receive(NULL, &length, &group) == NELI_NULL);
    WANT(neli_host_receive(host, NULL, &group) == NELI_NULL && neli_host_receive(host, &length, NULL) == NELI_NULL);

    int32_t (*lists[])(struct neli_host *, const struct neli_dump *, struct neli_message *) = {
        neli_host_dump,
        neli_host_resync,
    };
    for (int i = 0; i < 2; i++) {
        struct neli_dump taken_by_none = dump, without_body = dump;
        taken_by_none.take = NULL;
        without_body.length = 16;
        WANT(lists[i](NULL, &dump, &message) == NELI_NULL && lists[i](host, NULL, &message) == NELI_NULL);
        WANT(lists[i](host, &dump, NULL) == NELI_NULL && lists[i](host, &taken_by_none, &message) == NELI_NULL);
        WANT(lists[i](host, &without_body, &message) == NELI_NULL);
    }

    WANT(neli_host_resync_all(host, NULL, 1, &message) == NELI_NULL);
    WANT(neli_host_resync_all(host, &dump, SIZE_MAX, &message) == NELI_NULL);

    WANT(!neli_host_find(NULL, &walk, 1, &attribute) && !neli_host_find(host, NULL, 1, &attribute));
    WANT(!neli_host_find(host, &walk, 1, NULL));
    WANT(neli_host_text(NULL, &attribute) == NULL && neli_host_text(host, NULL) == NULL);
    neli_host_explain(NULL, NELI_LINK, NULL, text, sizeof text);
    WANT(strlen(text) > 0 && strcmp(text, "Success") != 0);
    neli_host_explain(NULL, NELI_KERNEL_ERROR, &message, text, sizeof text);
    WANT(strlen(text) > 0 && strncmp(text, "code", 4) != 0);
    text[0] = 0;
    neli_host_explain(host, NELI_KERNEL_ERROR, NULL, text, sizeof text);
    WANT(strlen(text) > 0 && strncmp(text, "code", 4) != 0);
    neli_host_explain(host, NELI_LINK, NULL, NULL, sizeof text);

    /* Nothing was sent, and the host is as it was. */
    want_loopback(host, send_question(host, 1));
    neli_host_close(host);
}

/* An attribute of an earlier item may lie past the end of the one that was read last. */
static void a_text_of_an_earlier_item(void) {
    struct neli_host *host = route_host(false);
    struct neli_message message;
    struct neli_attribute name, after_item;
    struct neli_walk walk;
    size_t link = send_question(host, 1), refused = send_question(host, 4711);
    WANT(neli_host_text(host, &(struct neli_attribute){.payload_length = 1}) == NULL);
    WANT(neli_host_next(host, link, &message) == NELI_ITEM);
    WANT(neli_attributes_of(&message, sizeof(struct ifinfomsg), &walk) == NELI_OK);
    WANT(neli_host_find(host, &walk, IFLA_IFNAME, &name));
    WANT(strcmp(neli_host_text(host, &name), "lo") == 0);
    after_item = name;
    after_item.payload = neli_host_item_length(host);
    WANT(neli_host_text(host, &after_item) == NULL);
    after_item.payload_length = 0;
    WANT(neli_host_text(host, &after_item) == NULL);
    /* The bytes of the link are there still, behind the shorter item. */
    WANT(neli_host_next(host, refused, &message) == NELI_KERNEL_ERROR);
    after_item = name;
    after_item.payload = neli_host_item_length(host) - 1;
    WANT(neli_host_text(host, &after_item) == NULL);
    after_item.payload = neli_host_item_length(host) + 1;
    WANT(neli_host_text(host, &after_item) == NULL);
    after_item.payload = SIZE_MAX;
    WANT(neli_host_text(host, &after_item) == NULL);
    neli_host_close(host);
}

/* Hands in a message to group 1. */
static void notify(struct neli_router *router, uint16_t type, const void *body, size_t length) {
    static const uint32_t group = 1;
    struct neli_writer writer = {0};
    uint8_t out[64];
    WANT(neli_begin_message(out, sizeof out, &writer, type, 0, 0, 0) == NELI_OK);
    WANT(neli_put_bytes(out, sizeof out, &writer, body, length) == NELI_OK);
    WANT(neli_end_message(out, sizeof out, &writer) == NELI_OK);
    WANT(neli_router_datagram(router, out, writer.end, &group, 1) == NELI_OK);
}

/* A listener continues after an error message and faults of the link. */
static void listening_goes_on(void) {
    struct neli_router router = NELI_ROUTER_CLOSED;
    struct neli_item item = {0};
    static const int32_t error[5] = {-ENODEV, 16, 0, 0, 0};
    WANT(neli_router_listen(&router, &item) == NELI_STATE);
    WANT(neli_router_new(&router, 7) == NELI_OK);
    WANT(neli_router_listen(NULL, &item) == NELI_NULL && neli_router_listen(&router, NULL) == NELI_NULL);
    WANT(neli_router_listen(&router, &item) == NELI_WAITS);
    notify(&router, RTM_NEWLINK, "a body", 6);
    notify(&router, NLMSG_ERROR, error, sizeof error);
    notify(&router, RTM_DELLINK, "", 0);
    WANT(neli_router_fault(&router, EAGAIN) == NELI_OK);
    WANT(neli_router_listen(&router, &item) == NELI_ITEM && item.type == RTM_NEWLINK);
    WANT(neli_router_fault(&router, ENOBUFS) == NELI_OK && neli_router_fault(&router, ECONNRESET) == NELI_OK);
    WANT(neli_router_listen(&router, &item) == NELI_OVERRUN);
    WANT(neli_router_listen(&router, &item) == NELI_ITEM && item.type == NLMSG_ERROR && item.error == -ENODEV);
    WANT(neli_router_fault(&router, -ECONNRESET) == NELI_OK);
    WANT(neli_router_listen(&router, &item) == NELI_LINK);
    WANT(neli_router_listen(&router, &item) == NELI_ITEM && item.type == RTM_DELLINK);
    WANT(neli_router_listen(&router, &item) == NELI_WAITS);
    WANT(neli_router_close(&router, NELI_MULTICAST) == NELI_OK);
    WANT(neli_router_listen(&router, &item) == NELI_HANDLE);
    WANT(neli_router_free(&router) == NELI_OK);
}

const struct test tests[] = {
    TEST(a_dump_of_many_datagrams),
    TEST(two_requests_in_the_other_order),
    TEST(a_refusal_with_text_and_offset),
    TEST(a_route_whose_body_begins_with_a_nest),
    TEST(a_notification_while_a_dump_runs),
    TEST(a_buffer_that_ran_over),
    TEST(another_sender_is_passed_over),
    TEST(nothing_that_is_wrong_crosses),
    TEST(null_pointers_are_refused),
    TEST(a_text_of_an_earlier_item),
    TEST(listening_goes_on),
    {0},
};
