#include "request.h"
#include <errno.h>
#include <linux/if_link.h>
#include <linux/rtnetlink.h>
#include <linux/veth.h>
#include <net/if.h>
#include <stdio.h>
#include <stdlib.h>
#include <string.h>

enum status status_of(int32_t code) {
    switch (code) {
    case NELI_OK: return STATUS_COMPLETE;
    case NELI_INTERRUPTED: return STATUS_INTERRUPTED;
    case NELI_KERNEL_ERROR: return STATUS_FAILED;
    case NELI_LINK:
    case NELI_BYTES:
    case NELI_SHORT:
    case NELI_LENGTH:
    case NELI_STRAY:
    case NELI_NO_ACK:
    case NELI_UNEXPECTED_ACK:
    case NELI_UNENDED: return STATUS_LOST;
    default: return STATUS_NOT_BEGUN;
    }
}

void say(const struct neli_host *host, const char *what, int32_t code, const struct neli_message *message) {
    char text[512];
    neli_host_explain(host, code, message, text, sizeof text);
    fprintf(stderr, "%s: %s\n", what, text);
}

void fail(const struct neli_host *host, const char *what, int32_t code, const struct neli_message *message) {
    say(host, what, code, message);
    exit(status_of(code));
}

void open_or_fail(struct neli_host **host, int family, const uint32_t *groups, size_t count) {
    int32_t code = neli_host_open(host, family, groups, count);
    if (code == NELI_OK) return;
    say(*host, "a netlink socket", code, NULL);
    exit(STATUS_NOT_BEGUN);
}

static void written(int32_t code) {
    if (code == NELI_OK) return;
    say(NULL, "a request", code, NULL);
    exit(STATUS_NOT_BEGUN);
}

void put(struct body *body, const void *bytes, size_t length) {
    written(neli_put_bytes(body->bytes, sizeof body->bytes, &body->writer, bytes, length));
}

void put_attribute(struct body *body, uint16_t type, const void *payload, size_t length) {
    written(neli_put_attribute(body->bytes, sizeof body->bytes, &body->writer, type, payload, length));
}

void put_text(struct body *body, uint16_t type, const char *text) {
    written(neli_put_text(body->bytes, sizeof body->bytes, &body->writer, type, text));
}

size_t begin_nest(struct body *body, uint16_t type) {
    size_t nest = 0;
    written(neli_begin_nest(body->bytes, sizeof body->bytes, &body->writer, type, &nest));
    return nest;
}

void end_nest(struct body *body, size_t nest) {
    written(neli_end_nest(body->bytes, sizeof body->bytes, &body->writer, nest));
}

struct body pair(const char *name, const char *peer) {
    struct body body = link_body(0, false);
    struct ifinfomsg other = {0};
    put_text(&body, IFLA_IFNAME, name);
    size_t info = begin_nest(&body, IFLA_LINKINFO);
    put_text(&body, IFLA_INFO_KIND, "veth");
    size_t data = begin_nest(&body, IFLA_INFO_DATA);
    size_t end = begin_nest(&body, VETH_INFO_PEER);
    put(&body, &other, sizeof other);
    put_text(&body, IFLA_IFNAME, peer);
    end_nest(&body, end);
    end_nest(&body, data);
    end_nest(&body, info);
    return body;
}

struct body link_body(int index, bool is_up) {
    struct body body = {0};
    struct ifinfomsg link = {.ifi_index = index};
    if (index != 0) link.ifi_change = IFF_UP;
    if (is_up) link.ifi_flags = IFF_UP;
    put(&body, &link, sizeof link);
    return body;
}

int32_t ask(struct neli_host *host, uint16_t type, uint16_t flags, const struct body *body,
            struct neli_message *message) {
    struct neli_verdict verdict;
    size_t handle;
    int32_t code = neli_host_send(host, type, flags | NLM_F_ACK, body->bytes, body->writer.end, &handle);
    if (code != NELI_OK) return code;
    do
        code = neli_host_next(host, handle, message);
    while (code == NELI_ITEM);
    if (code == NELI_END) code = neli_host_verdict(host, handle, &verdict);
    neli_host_close_request(host, handle);
    return code;
}
