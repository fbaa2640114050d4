/* A host over functions of the caller's: a kernel of neli.h that plays in the same process, without a socket. */
#include "testing.h"
#include <errno.h>
#include <linux/rtnetlink.h>
#include <string.h>

#define PORT 4711
#define LINKS 40

/* The kernel: its datagrams that wait to be received, and what its socket does next. */
struct kernel {
    struct {
        uint8_t bytes[512];
        size_t length;
        uint32_t group;
    } queue[64];
    size_t first, count;
    int refuses;      /* the number with which the next send is refused, or 0 */
    int loses;        /* the fault that the next receive returns, or 0 */
    bool is_long;     /* whether the next datagram is longer than its room */
    int delays;       /* so many waits it takes until something is there */
    int interrupts;   /* so many dumps more, and one is marked as interrupted */
    int dump_ends;    /* so many datagrams of a dump are not received yet */
    int sent, waited; /* how often each was called */
};

static uint8_t *append(struct kernel *kernel, uint32_t group, size_t **length) {
    size_t at = (kernel->first + kernel->count++) % 64;
    WANT(kernel->count <= 64);
    kernel->queue[at].group = group;
    *length = &kernel->queue[at].length;
    return kernel->queue[at].bytes;
}

static void notify(struct kernel *kernel, uint32_t number, uint32_t port, int index) {
    struct ifinfomsg link = {.ifi_index = index};
    size_t *length;
    uint8_t *out = append(kernel, RTNLGRP_LINK, &length);
    WANT(neli_kernel_notification(RTM_NEWLINK, 0, number, port, &link, sizeof link, out, 512, length) == NELI_OK);
}

/* All links in many datagrams, of which Linux runs one such answer at a time. */
static void answer_dump(struct kernel *kernel, const struct neli_request *request) {
    struct neli_kernel_dump dump = NELI_KERNEL_DUMP_CLOSED;
    struct ifinfomsg link = {0};
    size_t *length;
    int32_t code;
    WANT(kernel->dump_ends == 0);
    WANT(neli_kernel_dump_new(&dump, request, 200) == NELI_OK);
    while (link.ifi_index++ < LINKS)
        WANT(neli_kernel_dump_push(&dump, RTM_NEWLINK, 0, &link, sizeof link) == NELI_OK);
    uint16_t mark = kernel->interrupts > 0 && --kernel->interrupts == 0 ? NLM_F_DUMP_INTR : 0;
    WANT(neli_kernel_dump_finish(&dump, mark, 0, NULL, 0) == NELI_OK);
    do {
        uint8_t *out = append(kernel, 0, &length);
        code = neli_kernel_dump_next(&dump, out, 512, length);
        kernel->dump_ends++;
    } while (code == NELI_ITEM);
    kernel->count--;
    kernel->dump_ends--;
    WANT(code == NELI_END && kernel->dump_ends > 5 && neli_kernel_dump_free(&dump) == NELI_OK);
}

/* Why there is no such link: nothing, an attribute that is missing, the same in a nest, or all that can be said. */
static size_t reasons(int index, uint8_t *out, size_t room) {
    struct neli_writer writer = {0};
    bool is_all = index == LINKS + 4;
    if (is_all) WANT(neli_put_text(out, room, &writer, NELI_ANSWER_TEXT, "no") == NELI_OK);
    if (is_all) WANT(neli_put_u32(out, room, &writer, NELI_ANSWER_OFFSET, 44) == NELI_OK);
    if (index > LINKS + 1) WANT(neli_put_u32(out, room, &writer, NELI_ANSWER_MISSING, 3) == NELI_OK);
    if (index > LINKS + 2) WANT(neli_put_u32(out, room, &writer, NELI_ANSWER_MISSING_NEST, 32) == NELI_OK);
    return writer.end;
}

/* A get or a change, with an acknowledgement. */
static void answer(struct kernel *kernel, const uint8_t *bytes, const struct neli_request *request) {
    struct ifinfomsg link;
    size_t *length;
    uint8_t *out;
    memcpy(&link, bytes + request->message.payload, sizeof link);
    if (link.ifi_index > LINKS) {
        uint8_t list[64];
        size_t size = reasons(link.ifi_index, list, sizeof list);
        out = append(kernel, 0, &length);
        WANT(neli_kernel_capped_error(request, -ENODEV, list, size, out, 512, length) == NELI_OK);
        return;
    }
    if (request->message.type == RTM_GETLINK) {
        out = append(kernel, 0, &length);
        WANT(neli_kernel_reply(request, RTM_NEWLINK, 0, &link, sizeof link, out, 512, length) == NELI_OK);
    } else {
        notify(kernel, request->message.number, request->port, link.ifi_index);
    }
    out = append(kernel, 0, &length);
    WANT(request->wants_acknowledgement && neli_kernel_ack(request, NULL, 0, out, 512, length) == NELI_OK);
}

/* ---- The functions ---- */

static int send_to(void *state, const uint8_t *bytes, size_t length) {
    struct kernel *kernel = state;
    struct neli_walk walk = {0, length};
    struct neli_request request;
    int refused = kernel->refuses;
    kernel->refuses = 0;
    kernel->sent++;
    if (refused != 0) return refused;
    while (neli_next_request(bytes, length, &walk, PORT, &request) == NELI_ITEM)
        if (request.wants_routing_dump) answer_dump(kernel, &request);
        else answer(kernel, bytes, &request);
    WANT(walk.place == length);
    return 0;
}

static int receive_from(void *state, uint8_t *out, size_t room, struct neli_received *received) {
    struct kernel *kernel = state;
    int lost = kernel->loses;
    size_t at = kernel->first;
    kernel->loses = 0;
    if (lost != 0) return lost;
    if (kernel->is_long) {
        memset(out, 7, room);
        *received = (struct neli_received){room + 64, RTNLGRP_LINK, true};
        kernel->is_long = false;
        return 0;
    }
    if (kernel->delays > 0) return EINPROGRESS;
    if (kernel->count == 0) return EAGAIN;
    WANT(kernel->queue[at].length <= room);
    memcpy(out, kernel->queue[at].bytes, kernel->queue[at].length);
    *received = (struct neli_received){kernel->queue[at].length, kernel->queue[at].group, kernel->queue[at].group != 0};
    kernel->first = (at + 1) % 64;
    kernel->count--;
    if (kernel->dump_ends > 0 && received->group == 0) kernel->dump_ends--;
    return 0;
}

/* Nothing comes by itself. */
static int wait_for(void *state, int milliseconds) {
    struct kernel *kernel = state;
    kernel->waited++;
    if (kernel->delays > 0) return --kernel->delays, 0;
    if (milliseconds >= 0) return EAGAIN;
    return kernel->count > 0 ? 0 : EPIPE;
}

static struct neli_host *host_over(struct kernel *kernel) {
    const struct neli_transport over = {kernel, send_to, receive_from, wait_for};
    struct neli_host *host;
    *kernel = (struct kernel){0};
    WANT(neli_host_open_over(&host, NETLINK_ROUTE, PORT, &over) == NELI_OK);
    return host;
}

/* ---- The tests ---- */

/* A link arrives, and then the acknowledgement. */
static void want_link(struct neli_host *host, size_t handle) {
    struct neli_message message;
    struct neli_verdict verdict;
    WANT(neli_host_next(host, handle, &message) == NELI_ITEM && message.type == RTM_NEWLINK && message.port == PORT);
    WANT(neli_host_next(host, handle, &message) == NELI_ITEM && message.type == NLMSG_ERROR);
    WANT(neli_host_next(host, handle, &message) == NELI_END && neli_host_verdict(host, handle, &verdict) == NELI_OK);
    WANT(neli_host_close_request(host, handle) == NELI_OK);
}

static void a_client_of_a_simulator(void) {
    static struct kernel kernel;
    struct neli_host *host = host_over(&kernel);
    struct neli_message message;
    struct body body = link_body(7, true);
    WANT(neli_host_fd(host) == -1 && neli_host_port(host) == PORT);
    size_t dumps[] = {send_dump(host), send_dump(host)}, one = send_question(host, 7), none = send_question(host, 99);
    WANT(kernel.sent == 3); /* the second dump waits for its turn */
    want_link(host, one);
    WANT(neli_host_next(host, none, &message) == NELI_KERNEL_ERROR);
    WANT(count_links(host, dumps[1]) == LINKS && count_links(host, dumps[0]) == LINKS && kernel.sent == 4);
    /* A change of its own comes to the group, of which it is a member. */
    done(host, RTM_SETLINK, 0, body);
    notify(&kernel, 0, 0, 8);
    WANT(neli_host_next(host, NELI_MULTICAST, &message) == NELI_ITEM && message.port == PORT);
    WANT(neli_host_next(host, NELI_MULTICAST, &message) == NELI_ITEM && message.port == 0);
    WANT(is_over(host, neli_host_next(host, NELI_MULTICAST, &message), EPIPE));
    neli_host_set_wait(host, 10);
    WANT(is_over(host, neli_host_next(host, NELI_MULTICAST, &message), EAGAIN));
    neli_host_stop(host);
    int waited = kernel.waited;
    WANT(is_over(host, neli_host_next(host, NELI_MULTICAST, &message), ECANCELED) && kernel.waited == waited);
    WANT(neli_host_is_ready(host, NELI_MULTICAST));
    neli_host_close(host);
}

static void faults_of_a_transport(void) {
    static struct kernel kernel;
    struct neli_host *host = host_over(&kernel);
    struct neli_message message;
    size_t handle, later;
    struct ifinfomsg link = {.ifi_index = 1};
    /* A refusal is that of the send, and leaves nothing open. */
    kernel.refuses = EPERM;
    WANT(is_over(host, neli_host_send(host, RTM_GETLINK, NLM_F_ACK, &link, sizeof link, &handle), EPERM));
    WANT(in_use(host) == 0);
    /* What would block is sent again. */
    kernel.refuses = EAGAIN;
    handle = send_question(host, 1);
    WANT(kernel.count == 0 && kernel.sent == 2);
    want_link(host, handle);
    /* After a loss by ENOBUFS nothing goes out until nothing is left. */
    handle = send_question(host, 1);
    kernel.loses = ENOBUFS;
    WANT(is_over(host, neli_host_next(host, handle, &message), ENOBUFS));
    WANT(is_over(host, neli_host_next(host, NELI_MULTICAST, &message), ENOBUFS));
    later = send_question(host, 1);
    WANT(kernel.sent == 4);
    want_link(host, later);
    WANT(kernel.sent == 5);
    /* A refusal of what had to wait is read. */
    size_t first = send_dump(host), second = send_dump(host);
    WANT(kernel.sent == 6);
    kernel.refuses = ENOBUFS;
    WANT(count_links(host, first) == LINKS && kernel.sent == 7);
    WANT(is_over(host, neli_host_next(host, second, &message), ENOBUFS));
    WANT(count_links(host, send_dump(host)) == LINKS);
    neli_host_close(host);
}

/* One that is longer than its room is one loss, and what comes after it is read. */
static void a_datagram_longer_than_its_room(void) {
    static struct kernel kernel;
    struct neli_host *host = host_over(&kernel);
    struct neli_message message;
    size_t handle = send_question(host, 1);
    kernel.is_long = true;
    notify(&kernel, 0, 0, 8);
    WANT(is_over(host, neli_host_next(host, NELI_MULTICAST, &message), EMSGSIZE));
    WANT(neli_host_next(host, NELI_MULTICAST, &message) == NELI_ITEM && message.type == RTM_NEWLINK);
    WANT(is_over(host, neli_host_next(host, NELI_MULTICAST, &message), EPIPE));
    WANT(is_over(host, neli_host_next(host, handle, &message), EMSGSIZE));
    WANT(neli_host_next(host, handle, &message) == NELI_END);
    neli_host_close(host);
}

/* Where answers may come later, an answer is awaited until it has come. */
static void answers_that_come_later(void) {
    static struct kernel kernel;
    struct neli_host *host = host_over(&kernel);
    size_t dump = send_dump(host), handle = send_question(host, 1);
    kernel.delays = 3;
    want_link(host, handle);
    WANT(kernel.delays == 0 && kernel.waited == 3);
    kernel.delays = 2;
    WANT(count_links(host, dump) == LINKS);
    neli_host_close(host);
}

/* All that a kernel says of a refusal stands in the words, as much of it as there is room for. */
static void a_refusal_says_what_is_missing(void) {
    static const char *words[] = {
        "No such device",
        "No such device, attribute 3 is missing",
        "No such device, attribute 3 is missing in the nest at byte 32 of the request",
        "No such device: no, at byte 44 of the request, attribute 3 is missing in the nest at byte 32 of the request",
    };
    static struct kernel kernel;
    struct neli_host *host = host_over(&kernel);
    struct neli_message message;
    char text[256], part[256];
    for (int i = 0; i < 4; i++) {
        size_t handle = send_question(host, LINKS + 1 + i);
        WANT(neli_host_next(host, handle, &message) == NELI_KERNEL_ERROR);
        neli_host_explain(host, NELI_KERNEL_ERROR, &message, text, sizeof text);
        WANT(strcmp(text, words[i]) == 0);
        for (size_t room = 1; room < sizeof part; room++) {
            size_t kept = room - 1 < strlen(text) ? room - 1 : strlen(text);
            memset(part, 'x', sizeof part);
            neli_host_explain(host, NELI_KERNEL_ERROR, &message, part, room);
            WANT(strlen(part) == kept && memcmp(part, text, kept) == 0 && part[sizeof part - 1] == 'x');
        }
    }
    neli_host_close(host);
}

/* A list of links that is read, and a fault of the link at its next beginning. */
struct taken {
    struct kernel *kernel;
    int links, begun, loses;
};

static void take_links(const struct neli_host *host, const struct neli_message *message, void *list) {
    struct taken *taken = list;
    (void)host;
    taken->links = message != NULL ? taken->links + 1 : 0;
    if (message != NULL) return;
    taken->begun++;
    taken->kernel->loses = taken->loses;
    taken->loses = 0;
}

/* Of two lists that which was interrupted is requested again, and after a loss each. */
static void stale_lists_are_requested_again(void) {
    static const struct ifinfomsg all;
    static struct kernel kernel;
    struct neli_host *host = host_over(&kernel);
    struct neli_message last;
    struct taken lists[] = {{&kernel, 0, 0, 0}, {&kernel, 0, 0, 0}};
    const struct neli_dump dumps[] = {
        {RTM_GETLINK, 0, &all, sizeof all, 3, take_links, &lists[0]},
        {RTM_GETLINK, 0, &all, sizeof all, 3, take_links, &lists[1]},
    };
    kernel.interrupts = 2;
    WANT(neli_host_resync_all(host, dumps, 2, &last) == NELI_OK && kernel.sent == 3);
    WANT(lists[0].begun == 1 && lists[1].begun == 2 && lists[0].links == LINKS && lists[1].links == LINKS);
    lists[1].loses = ENOBUFS;
    WANT(neli_host_resync_all(host, dumps, 2, &last) == NELI_OK && kernel.sent == 7);
    WANT(lists[0].begun == 3 && lists[1].begun == 4 && lists[0].links == LINKS && lists[1].links == LINKS);
    neli_host_close(host);
}

static void a_transport_has_all_functions(void) {
    static struct kernel kernel;
    const struct neli_transport over[] = {
        {&kernel, NULL, receive_from, wait_for},
        {&kernel, send_to, NULL, wait_for},
        {&kernel, send_to, receive_from, NULL},
    };
    struct neli_host *host = host_over(&kernel);
    WANT(neli_host_open_over(NULL, NETLINK_ROUTE, PORT, &over[0]) == NELI_NULL);
    neli_host_close(host);
    for (int i = 0; i < 3; i++)
        WANT(neli_host_open_over(&host, NETLINK_ROUTE, PORT, &over[i]) == NELI_NULL && host == NULL);
    WANT(neli_host_open_over(&host, NETLINK_ROUTE, PORT, NULL) == NELI_NULL && host == NULL);
}

const struct test tests[] = {
    TEST(a_client_of_a_simulator),
    TEST(faults_of_a_transport),
    TEST(a_datagram_longer_than_its_room),
    TEST(answers_that_come_later),
    TEST(a_refusal_says_what_is_missing),
    TEST(stale_lists_are_requested_again),
    TEST(a_transport_has_all_functions),
    {0},
};
