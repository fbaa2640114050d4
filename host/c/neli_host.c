#include "host.h"
#include <errno.h>
#include <limits.h>
#include <linux/netlink.h>
#include <stdio.h>
#include <stdlib.h>
#include <string.h>

/* Makes a host of a family that is closed, if it may have what it is opened with. */
static int32_t make(struct neli_host **host, int family, bool may) {
    if (host == NULL) return NELI_NULL;
    *host = may ? malloc(sizeof **host) : NULL;
    if (*host == NULL) return may ? NELI_MEMORY : NELI_NULL;
    **host = (struct neli_host){.session = NELI_SESSION_CLOSED, .protocol = (uint16_t)family};
    return NELI_OK;
}

int32_t neli_host_open(struct neli_host **host, int family, const uint32_t *groups, size_t count) {
    int32_t code = make(host, family, count <= PTRDIFF_MAX / sizeof *groups && neli_is_slice(groups, count));
    if (code == NELI_OK) code = link_open(&(*host)->link, family, groups, count);
    return code == NELI_OK ? neli_session_new(&(*host)->session, family, (*host)->link.port, true) : code;
}

int32_t neli_host_open_over(struct neli_host **host, int family, uint32_t port, const struct neli_transport *over) {
    bool is_whole = over != NULL && over->send != NULL && over->receive != NULL && over->wait != NULL;
    int32_t code = make(host, family, is_whole);
    if (code == NELI_OK) code = link_open_over(&(*host)->link, port, over);
    return code == NELI_OK ? neli_session_new(&(*host)->session, family, port, true) : code;
}

void neli_host_close(struct neli_host *host) {
    if (host == NULL) return;
    link_close(&host->link);
    neli_session_free(&host->session);
    free(host->item);
    free(host);
}

int neli_host_fd(const struct neli_host *host) {
    return host != NULL ? host->link.fd : -1;
}

uint32_t neli_host_port(const struct neli_host *host) {
    return host != NULL ? host->link.port : 0;
}

int neli_host_fault(const struct neli_host *host) {
    return host != NULL ? host->link.fault : 0;
}

void neli_host_set_wait(struct neli_host *host, int milliseconds) {
    if (host != NULL) host->link.wait = milliseconds;
}

void neli_host_set_ends_by_signals(struct neli_host *host, bool ends) {
    if (host != NULL) host->link.ends_by_signals = ends;
}

void neli_host_set_keeps_unasked(struct neli_host *host, bool keeps) {
    if (host != NULL) host->keeps_unasked = keeps;
}

int32_t neli_host_set_strict(struct neli_host *host) {
    return host != NULL ? link_set_strict(&host->link) : NELI_NULL;
}

void neli_host_stop(const struct neli_host *host) {
    if (host != NULL) link_stop(&host->link);
}

const uint8_t *neli_host_item(const struct neli_host *host) {
    return host != NULL ? host->item : NULL;
}

size_t neli_host_item_length(const struct neli_host *host) {
    return host != NULL ? host->item_length : 0;
}

const uint8_t *neli_host_datagram(const struct neli_host *host) {
    return host != NULL ? host->link.room : NULL;
}

int32_t neli_host_receive(struct neli_host *host, size_t *length, uint32_t *group) {
    if (host == NULL || length == NULL || group == NULL) return NELI_NULL;
    int64_t end = link_end_of_wait(&host->link);
    struct neli_received received;
    int32_t code;
    while ((code = link_receive(&host->link, &received)) == NELI_WAITS)
        if (link_wait(&host->link, end, false) != NELI_OK) return NELI_LINK;
    *length = received.length;
    *group = received.group;
    return code;
}

/* ---- Lists ---- */

/* Whether a list with this result may be complete when it is requested again. */
static bool is_passing(const struct neli_host *host, int32_t code, const struct neli_verdict *verdict) {
    int fault = host->link.fault;
    if (code == NELI_LINK) return fault != EAGAIN && fault != EINTR && fault != ECANCELED;
    return neli_is_passing(code, verdict->error);
}

/* Requests a list once. */
static int32_t take_dump(struct neli_host *host, const struct neli_dump *dump, struct neli_list *list,
                         struct neli_message *last, struct neli_verdict *verdict) {
    size_t handle;
    uint16_t flags = dump->flags | NLM_F_DUMP;
    int32_t code = neli_host_send(host, dump->type, flags, dump->body, dump->length, &handle);
    if (code != NELI_OK) return code;
    bool has_end = false;
    neli_list_requested(list, (uint32_t)handle);
    dump->take(host, NULL, dump->list);
    while ((code = neli_host_next(host, handle, last)) == NELI_ITEM) {
        has_end = last->type == NLMSG_DONE;
        if (!has_end) dump->take(host, last, dump->list);
    }
    int32_t judged = neli_host_verdict(host, handle, verdict);
    neli_host_close_request(host, handle);
    if (code == NELI_END) code = judged == NELI_OK && !has_end ? NELI_UNENDED : judged;
    neli_list_ended(list, (uint32_t)handle, code);
    return code;
}

/* Requests lists, one after the other, and those that are stale again as long as that may help: after a loss all. */
static int32_t take_all(struct neli_host *host, const struct neli_dump *dumps, size_t count, bool drops,
                        struct neli_message *last) {
    struct neli_verdict verdict = {0};
    if (host == NULL || count >= PTRDIFF_MAX / sizeof *dumps || !neli_is_slice(dumps, count) || last == NULL)
        return NELI_NULL;
    for (size_t i = 0; i < count; i++)
        if (dumps[i].take == NULL || !neli_is_slice(dumps[i].body, dumps[i].length)) return NELI_NULL;
    struct neli_list *lists = calloc(count + 1, sizeof *lists);
    int32_t code = NELI_MEMORY;
    bool is_lost = true;
    for (int times = 1; lists != NULL; times++) {
        size_t i = 0;
        code = drops && is_lost ? neli_host_take_in(host) : NELI_OK;
        if (drops && is_lost) host_drop(host, NELI_READER_MULTICAST);
        for (; i < count && code == NELI_OK; i++)
            if (lists[i].state == NELI_LIST_STALE) code = take_dump(host, &dumps[i], &lists[i], last, &verdict);
        is_lost = code == NELI_LINK || code == NELI_SHORT;
        for (size_t j = 0; is_lost && j < count; j++) neli_list_lost(&lists[j]);
        if (i == 0 || times >= dumps[i - 1].times || !is_passing(host, code, &verdict)) break;
    }
    free(lists);
    return code;
}

int32_t neli_host_dump(struct neli_host *host, const struct neli_dump *dump, struct neli_message *last) {
    return take_all(host, dump, 1, false, last);
}

int32_t neli_host_resync(struct neli_host *host, const struct neli_dump *dump, struct neli_message *last) {
    return take_all(host, dump, 1, true, last);
}

int32_t neli_host_resync_all(struct neli_host *host, const struct neli_dump *dumps, size_t count,
                             struct neli_message *last) {
    return take_all(host, dumps, count, true, last);
}

/* ---- The item ---- */

bool neli_host_find(const struct neli_host *host, const struct neli_walk *walk, uint16_t number,
                    struct neli_attribute *found) {
    return host != NULL && neli_find_attribute(host->item, host->item_length, walk, number, found) == NELI_ITEM;
}

const char *neli_host_text(const struct neli_host *host, const struct neli_attribute *attribute) {
    if (host == NULL || attribute == NULL || attribute->payload > host->item_length) return NULL;
    const uint8_t *payload = host->item + attribute->payload;
    size_t length, left = host->item_length - attribute->payload;
    if (attribute->payload_length > left) return NULL;
    return neli_text_length(payload, attribute->payload_length, &length) == NELI_OK ? (const char *)payload : NULL;
}

/* Appends the kernel's reasons for its refusal, as much of them as there is room for. */
static void append_reasons(const struct neli_host *host, const struct neli_walk *list, char *text, size_t room) {
    static const char *const words[] = {
        [NELI_ANSWER_TEXT] = ": %s",
        [NELI_ANSWER_OFFSET] = ", at byte %u of the request",
        [NELI_ANSWER_MISSING] = ", attribute %u is missing",
        [NELI_ANSWER_MISSING_NEST] = " in the nest at byte %u of the request",
    };
    struct neli_attribute found;
    for (uint16_t which = NELI_ANSWER_TEXT; which <= NELI_ANSWER_MISSING_NEST; which++) {
        size_t used = strlen(text);
        uint32_t number;
        if (words[which] == NULL || !neli_host_find(host, list, which, &found)) continue;
        const uint8_t *payload = host->item + found.payload;
        if (which == NELI_ANSWER_TEXT && neli_host_text(host, &found) != NULL)
            snprintf(text + used, room - used, words[which], payload);
        if (which != NELI_ANSWER_TEXT && neli_get_u32(payload, found.payload_length, 0, &number) == NELI_OK)
            snprintf(text + used, room - used, words[which], number);
    }
}

void neli_host_explain(const struct neli_host *host, int32_t code, const struct neli_message *message, char *text,
                       size_t room) {
    struct neli_answer answer;
    bool is_answer = host != NULL && code == NELI_KERNEL_ERROR;
    if (text == NULL || room == 0) return;
    if (is_answer && neli_get_answer(host->item, host->item_length, message, &answer) == NELI_OK) {
        if (answer.code > -INT_MAX && answer.code < 0) snprintf(text, room, "%s", strerror(-answer.code));
        else snprintf(text, room, "error %d", answer.code);
        append_reasons(host, &answer.attributes, text, room);
    } else if (host != NULL && code == NELI_LINK) {
        snprintf(text, room, "%s", strerror(host->link.fault));
    } else if (neli_error_text(code, text, room) != NELI_OK) {
        snprintf(text, room, "code %d", code);
    }
}

/* The request that an error echoes, as a message of the item; of a capped one its header alone. */
static struct neli_message echo_of(const struct neli_message *message, const struct neli_answer *answer) {
    struct neli_message echo = {answer->echo_length, answer->echo_type, answer->echo_flags, answer->echo_number,
                                answer->echo_port, 0, 0};
    bool is_whole = message->type == NLMSG_ERROR && answer->code != 0 && (message->flags & NLM_F_CAPPED) == 0;
    if (!is_whole) return echo;
    echo.payload = message->payload + sizeof(struct nlmsgerr);
    echo.payload_length = answer->echo_length - sizeof(struct nlmsghdr);
    return echo;
}

void neli_host_refusal(const struct neli_host *host, struct neli_tables *tables, int32_t code,
                       const struct neli_message *message, char *text, size_t room) {
    struct neli_answer answer;
    size_t size;
    if (text == NULL || room == 0) return;
    if (host != NULL && code == NELI_KERNEL_ERROR &&
        neli_get_answer(host->item, host->item_length, message, &answer) == NELI_OK) {
        struct neli_message echo = echo_of(message, &answer);
        const struct neli_walk *list = &answer.attributes;
        code = neli_diagnosis(tables, host->protocol, host->item, host->item_length, &echo, answer.code,
                              host->item + list->place, list->end - list->place, text, room - 1, &size);
        if (code == NELI_OK || code == NELI_ROOM) text[size < room ? size : room - 1] = 0;
        if (code == NELI_OK || code == NELI_ROOM) return;
        code = NELI_KERNEL_ERROR;
    }
    neli_host_explain(host, code, message, text, room);
}
