#include "host.h"
#include <linux/netlink.h>
#include <stdlib.h>
#include <string.h>

/* The number of consecutive faults, without end, that mean a closed socket. */
#define FAULTS 8

/* A handle is the sequence number of its request and one, since 0 is NELI_MULTICAST. */
_Static_assert(SIZE_MAX - 1 > UINT32_MAX, "a size_t has room for each number and one, beside NELI_HOST_UNASKED");

static size_t handle_of(uint32_t number) {
    return (size_t)number + 1;
}

static uint32_t number_of(size_t handle) {
    return (uint32_t)(handle - 1);
}

static enum neli_reader reader_of(size_t handle) {
    if (handle == NELI_MULTICAST) return NELI_READER_MULTICAST;
    return handle == NELI_HOST_UNASKED ? NELI_READER_UNASKED : NELI_READER_REQUEST;
}

/* The next item of a handle, as neli_session_next. */
static int32_t look(struct neli_host *host, size_t handle, struct neli_lent *lent) {
    if (handle != NELI_HOST_UNASKED && handle > handle_of(UINT32_MAX)) return NELI_HANDLE;
    int32_t code = neli_session_next(&host->session, reader_of(handle), number_of(handle), lent);
    if (code != NELI_HANDLE) host->open = handle;
    return code;
}

/* ---- What goes out ---- */

/* Sends what may go out now. What would block stays on its way. */
static void flush(struct neli_host *host) {
    const uint8_t *bytes;
    size_t length;
    while (neli_session_outgoing(&host->session, &bytes, &length) == NELI_ITEM) {
        int32_t code = link_send(&host->link, bytes, length);
        if (code == NELI_WAITS) return;
        if (code == NELI_OK) neli_session_sent(&host->session);
        else neli_session_not_sent(&host->session, host->link.fault);
    }
}

/* Queues requests as one datagram, each with a number of its own. */
static int32_t queue(struct neli_host *host, const struct neli_host_request *requests, size_t count, size_t *handles) {
    struct neli_writer writer = {0};
    size_t room = 0;
    for (size_t i = 0; i < count; i++) {
        if (!neli_is_slice(requests[i].body, requests[i].length)) return NELI_NULL;
        if (requests[i].length > UINT32_MAX - NLMSG_HDRLEN - (NLMSG_ALIGNTO - 1)) return NELI_LENGTH;
        room += NLMSG_SPACE(requests[i].length);
    }
    uint8_t *out = malloc(room);
    int32_t code = out != NULL ? NELI_OK : NELI_MEMORY;
    for (size_t i = 0; i < count && code == NELI_OK; i++) {
        uint16_t type = requests[i].type, flags = requests[i].flags | NLM_F_REQUEST;
        uint32_t number = 0;
        code = neli_session_take_number(&host->session, &number);
        if (code == NELI_OK) code = neli_begin_message(out, room, &writer, type, flags, number, host->link.port);
        if (code == NELI_OK) code = neli_put_bytes(out, room, &writer, requests[i].body, requests[i].length);
        if (code == NELI_OK) code = neli_end_message(out, room, &writer);
        handles[i] = handle_of(number);
    }
    if (code == NELI_OK) code = neli_session_send_all(&host->session, out, writer.end);
    free(out);
    return code;
}

int32_t neli_host_send_all(struct neli_host *host, const struct neli_host_request *requests, size_t count,
                           size_t *handles) {
    struct neli_lent lent;
    if (host == NULL || count > PTRDIFF_MAX / sizeof *requests || !neli_is_slice(requests, count) ||
        !neli_is_slice(handles, count))
        return NELI_NULL;
    if (count == 0) return NELI_OK;
    int32_t code = queue(host, requests, count, handles);
    if (code == NELI_OK) flush(host);
    if (code != NELI_OK || look(host, handles[0], &lent) != NELI_LINK) return code;
    /* The system refuses them at once. */
    for (size_t i = 0; i < count; i++) neli_host_close_request(host, handles[i]);
    host->link.fault = lent.error;
    return NELI_LINK;
}

int32_t neli_host_send(struct neli_host *host, uint16_t type, uint16_t flags, const void *body, size_t length,
                       size_t *handle) {
    struct neli_host_request request = {type, flags, body, length};
    size_t sent;
    int32_t code = neli_host_send_all(host, &request, 1, handle != NULL ? &sent : NULL);
    if (code == NELI_OK) *handle = sent;
    return code;
}

/* ---- What comes ---- */

void host_drop(struct neli_host *host, enum neli_reader reader) {
    while (neli_session_is_ready(&host->session, reader, 0) == NELI_ITEM) neli_session_pass(&host->session, reader, 0);
}

/* Receives what is handed in next. A socket that has nothing but faults is closed. */
static int32_t receive(struct neli_host *host) {
    int32_t code = link_receive(&host->link, &host->held);
    if (code != NELI_OK) host->held.length = 0;
    host->faults = code == NELI_LINK ? host->faults + 1 : 0;
    if (code != NELI_LINK || host->faults > FAULTS) return code;
    host->due = host->link.fault;
    return NELI_OK;
}

/* Hands in the next datagram, or a fault of the link; at NELI_MEMORY the rest of it is held. NELI_WAITS if none has
 * arrived: the link was seen empty. */
static int32_t take_in(struct neli_host *host) {
    struct link *link = &host->link;
    struct neli_received *held = &host->held;
    size_t taken = 0;
    int32_t code = held->length > 0 || host->due != 0 ? NELI_OK : receive(host);
    if (code == NELI_OK && host->due != 0) code = neli_session_fault(&host->session, host->due);
    else if (code == NELI_OK)
        code = neli_session_receive(&host->session, link->room, held->length, held->group, held->is_joined, &taken);
    if (code == NELI_OK) host->due = 0;
    held->length -= taken;
    if (taken > 0) memmove(link->room, link->room + taken, held->length);
    if (code == NELI_WAITS && link->is_empty) neli_session_quiet(&host->session);
    if (!host->keeps_unasked) host_drop(host, NELI_READER_UNASKED);
    if (code != NELI_LINK) flush(host);
    return code;
}

int32_t neli_host_take_in(struct neli_host *host) {
    if (host == NULL) return NELI_NULL;
    int64_t end = link_end_of_wait(&host->link);
    int32_t code;
    do {
        code = take_in(host);
        if (code == NELI_OK) code = link_wait(&host->link, end, true);
    } while (code == NELI_OK);
    return code == NELI_WAITS ? NELI_OK : code;
}

/* ---- What is read ---- */

static void pass(struct neli_host *host, size_t handle) {
    neli_session_pass(&host->session, reader_of(handle), number_of(handle));
}

/* NELI_OK for the open handle of a request or of multicast. */
static int32_t want_open(struct neli_host *host, size_t handle) {
    struct neli_lent lent;
    if (host == NULL) return NELI_NULL;
    if (handle == NELI_HOST_UNASKED) return NELI_HANDLE;
    return handle == host->open || look(host, handle, &lent) != NELI_HANDLE ? NELI_OK : NELI_HANDLE;
}

/* Takes in more until the handle has something, or the wait has ended. An empty link may end an answer, so it looks
 * once more before it waits. */
static int32_t lend(struct neli_host *host, size_t handle, struct neli_lent *lent) {
    int32_t code = look(host, handle, lent);
    int64_t end = code == NELI_WAITS ? link_end_of_wait(&host->link) : 0;
    while (code == NELI_WAITS) {
        int32_t taken = take_in(host);
        if (taken != NELI_OK && taken != NELI_WAITS) return taken;
        code = look(host, handle, lent);
        if (code == NELI_WAITS && link_wait(&host->link, end, taken == NELI_OK) != NELI_OK) return NELI_LINK;
    }
    if (code == NELI_LINK) host->link.fault = lent->error;
    return code;
}

/* Copies an item, with its padding. */
static int32_t copy(struct neli_host *host, const struct neli_lent *lent, struct neli_message *message) {
    size_t length = NLMSG_SPACE(lent->length);
    struct nlmsghdr header = {(uint32_t)length, lent->message.type, lent->message.flags, lent->message.number,
                              lent->message.port};
    uint8_t *item = realloc(host->item, length);
    if (item == NULL) return NELI_MEMORY;
    memset(item + length - 4, 0, 4);
    memcpy(item, &header, sizeof header);
    memcpy(item + sizeof header, lent->bytes, lent->length);
    host->item = item;
    host->item_length = length;
    *message = lent->message;
    message->length = header.nlmsg_len;
    message->payload = sizeof header;
    message->payload_length = length - sizeof header;
    return NELI_OK;
}

int32_t neli_host_next(struct neli_host *host, size_t handle, struct neli_message *message) {
    struct neli_lent lent;
    if (host == NULL || message == NULL) return NELI_NULL;
    int32_t code = lend(host, handle, &lent);
    bool is_item = code == NELI_ITEM || code == NELI_KERNEL_ERROR;
    if (is_item && copy(host, &lent, message) != NELI_OK) return NELI_MEMORY;
    /* Where the wait has ended nothing is there to pass. */
    if (is_item || code == NELI_LINK || code == NELI_SHORT) pass(host, handle);
    return code;
}

int32_t neli_host_lend(struct neli_host *host, size_t handle, struct neli_lent *lent) {
    if (host == NULL || lent == NULL) return NELI_NULL;
    if (handle == NELI_HOST_UNASKED) return NELI_HANDLE;
    int32_t code = lend(host, handle, lent);
    if (code == NELI_LINK && handle == NELI_MULTICAST) pass(host, handle);
    return code;
}

int32_t neli_host_pass(struct neli_host *host, size_t handle) {
    int32_t code = want_open(host, handle);
    if (code == NELI_OK) pass(host, handle);
    return code;
}

bool neli_host_ready(struct neli_host *host, size_t *handle) {
    uint32_t number;
    if (host == NULL || handle == NULL) return false;
    struct neli_session *session = &host->session;
    if (neli_session_ready(session, &number) == NELI_ITEM) *handle = handle_of(number);
    else if (neli_session_is_ready(session, NELI_READER_MULTICAST, 0) == NELI_ITEM) *handle = NELI_MULTICAST;
    else if (neli_session_is_ready(session, NELI_READER_UNASKED, 0) == NELI_ITEM) *handle = NELI_HOST_UNASKED;
    else return false;
    return true;
}

bool neli_host_is_ready(struct neli_host *host, size_t handle) {
    struct neli_lent lent;
    if (host == NULL) return false;
    bool is_held = host->held.length > 0 || host->due != 0;
    return is_held || link_is_stopped(&host->link) || look(host, handle, &lent) != NELI_WAITS;
}

int32_t neli_host_verdict(struct neli_host *host, size_t handle, struct neli_verdict *verdict) {
    int32_t code = verdict != NULL ? want_open(host, handle) : NELI_NULL;
    if (code != NELI_OK) return code;
    *verdict = (struct neli_verdict){0};
    if (handle == NELI_MULTICAST) return NELI_WAITS;
    return neli_session_verdict(&host->session, number_of(handle), verdict);
}

int32_t neli_host_close_request(struct neli_host *host, size_t handle) {
    int32_t code = want_open(host, handle);
    if (code != NELI_OK) return code;
    host->open = NELI_HOST_UNASKED;
    if (handle == NELI_MULTICAST) return neli_session_close_multicast(&host->session);
    return neli_session_close(&host->session, number_of(handle));
}
