/* Sockets for neli.h: a netlink socket of the kernel with a session over it, for C and C++.
 *
 * The library that neli.h declares is proved: how messages are read and written, which request goes out next, who gets
 * what comes, and where an answer ends. The calls of this header are plain C around it, and are tested on a live
 * kernel: they receive, send, wait, and hand in the datagrams that arrive, whole, once and in order.
 *
 * Calls return a code of neli.h. NELI_LINK means that the socket failed: `neli_host_fault` then returns the number in
 * errno.h. EAGAIN, EINTR and ECANCELED only mean that the caller's wait has ended, not that the socket failed. One that
 * sends, reads or receives returns NELI_MEMORY if memory runs out, and can then be repeated. If a pointer is null where
 * a call does not allow it, or a length is past PTRDIFF_MAX, a call with a code returns NELI_NULL and changes nothing;
 * another does nothing, and returns 0, NULL or false.
 *
 * A host is used by one thread at a time; `neli_host_stop` may be called at any time, by any thread and by a signal's
 * handler. Link with -lneli. */
#ifndef NELI_HOST_H
#define NELI_HOST_H

#include "neli.h"

#ifdef __cplusplus
extern "C" {
#endif

/* A socket and its session, private to the library. */
struct neli_host;

/* The handle for messages that the kernel sends to the socket's own port without a request, as the packets of a
 * netfilter queue. They are kept after `neli_host_set_keeps_unasked`, and else dropped. */
#define NELI_HOST_UNASKED SIZE_MAX

/* ---- Opening and closing ---- */

/* Opens a socket of a netlink family, as NETLINK_ROUTE, in these multicast groups, and a session over it. `groups` may
 * be null if `count` is 0. NELI_LINK if the system refuses the socket or a group; NELI_MEMORY if memory runs out. Even
 * after a refusal `neli_host_close` frees what `host` points to, and `neli_host_explain` reports the cause; it may
 * point to null if memory ran out. */
int32_t neli_host_open(struct neli_host **host, int family, const uint32_t *groups, size_t count);

/* A datagram that was received: its length as it was sent, the group for which it arrived, or 0, and whether the
 * receiver is in that group: an own change's copy comes in the group's name also where it is not. */
struct neli_received {
    size_t length;
    uint32_t group;
    bool is_joined;
};

/* What a host may stand on in place of a socket: a simulator, a recording, a tunnel. Each call is given `state`, and
 * returns 0 or a number of errno.h, a fault as that of a socket. */
struct neli_transport {
    void *state;
    /* Sends a datagram. EAGAIN if that would block: it is sent again later. */
    int (*send)(void *state, const uint8_t *bytes, size_t length);
    /* Receives the next datagram, of which it writes as much as there is room for. EAGAIN if none is left, and nothing
     * more comes for what was sent before, as from the kernel; EINPROGRESS if none is there yet, but answers may come,
     * as over a tunnel. */
    int (*receive)(void *state, uint8_t *out, size_t room, struct neli_received *received);
    /* Waits for so many milliseconds, or without end if below 0, until one may have arrived, or one that would have
     * blocked may be sent. EAGAIN if the time has passed. Where no more will come, another number, which ends the
     * read. */
    int (*wait)(void *state, int milliseconds);
};

/* The same over functions of the caller's, for a netlink family and the port that answers have. They are called within
 * the calls of this host alone, until it is closed. `neli_host_fd` is then -1, and `neli_host_stop` ends a wait once
 * `wait` returns. NELI_NULL also if a function is null. */
int32_t neli_host_open_over(struct neli_host **host, int family, uint32_t port, const struct neli_transport *over);

/* Closes both, and frees the host. Does nothing to null. */
void neli_host_close(struct neli_host *host);

/* ---- What can be set and read at any time ---- */

/* Returns the socket, for options and for poll(2); it stays the host's. -1 if none is open, or if `host` is null. */
int neli_host_fd(const struct neli_host *host);

/* Returns the port of the socket, which the kernel chose. */
uint32_t neli_host_port(const struct neli_host *host);

/* Returns the cause of NELI_LINK, as a number of errno.h; 0 at first. */
int neli_host_fault(const struct neli_host *host);

/* Sets the milliseconds that a call waits in all; without end if below 0, the default. */
void neli_host_set_wait(struct neli_host *host, int milliseconds);

/* Sets whether a signal ends a wait, with EINTR; by default it does not. */
void neli_host_set_ends_by_signals(struct neli_host *host, bool ends);

/* Sets whether messages without a request are kept for NELI_HOST_UNASKED; by default they are not. */
void neli_host_set_keeps_unasked(struct neli_host *host, bool keeps);

/* Makes the kernel check all fields of a dump's request, and refuse those that it does not know: only then can a dump
 * list the objects of one link. NELI_LINK if the kernel refuses, with ENOPROTOOPT if it is too old for that. */
int32_t neli_host_set_strict(struct neli_host *host);

/* Ends every current wait, and each later one, with ECANCELED. */
void neli_host_stop(const struct neli_host *host);

/* ---- Requests ---- */

/* Sends a request of this type with these flags and NLM_F_REQUEST, whose payload is the body, of any length, and whose
 * answer is read by `handle`: its sequence number and one. `body` may be null if `length` is 0. It never waits, and
 * takes nothing in. A dump waits for its turn, until the one before has ended, and after a loss by ENOBUFS every
 * request waits until the socket was seen empty; what waits goes out from later calls that read. NELI_LINK if the
 * system refuses to send it now: then it is closed; where it is refused later, its read returns that. NELI_LENGTH if
 * its length exceeds 32 bits; NELI_IN_USE if no sequence number is free. */
int32_t neli_host_send(struct neli_host *host, uint16_t type, uint16_t flags, const void *body, size_t length,
                       size_t *handle);

/* A request of `neli_host_send_all`. */
struct neli_host_request {
    uint16_t type, flags;
    const void *body; /* which may be null if the length is 0 */
    size_t length;
};

/* Sends requests as one datagram, in their order: the kernel performs the first, answers it, and goes on with the next.
 * The answer to each is read by its handle; `handles` has room for as many. A refusal sends none of them. A list of
 * requests has at most one dump, since the kernel runs one at a time: NELI_KIND if it has two. With a dump all wait for
 * its turn. Else it returns what `neli_host_send` does. */
int32_t neli_host_send_all(struct neli_host *host, const struct neli_host_request *requests, size_t count,
                           size_t *handles);

/* Reads the next item of a handle, and may wait for datagrams.
 *   NELI_ITEM           a message, the header of the bytes at `neli_host_item`; also an acknowledgement, and the end of a
 *                       dump (NLMSG_DONE)
 *   NELI_KERNEL_ERROR   of a request: the kernel's error, which is such a message too, and ends the answer, but for
 *                       ENOBUFS of a dump: the buffer was full as it began, and its messages follow
 *   NELI_END            of a request: its answer has ended, or the socket was seen empty, so that nothing more comes
 *   NELI_LINK           something was lost here, by the fault of the socket that `neli_host_fault` returns, as ENOBUFS
 *                       if its buffer ran over; it ends an answer, and more follows for the two other handles. Or the
 *                       request was not sent. Or the wait has ended
 *   NELI_SHORT          something was lost here: a datagram that cannot be read to its end
 *   NELI_HANDLE         the handle is not open
 *   NELI_MEMORY         nothing is lost; the item stays the next one */
int32_t neli_host_next(struct neli_host *host, size_t handle, struct neli_message *message);

/* Lends the next item of a handle where the session keeps it, and may wait for datagrams. It returns what
 * `neli_host_next` does, but copies no byte, takes no memory for the item, and leaves it the next one: `lent` with its
 * bytes stays until the next call of this host. At NELI_KERNEL_ERROR it is the error. NELI_LINK for NELI_MULTICAST
 * counts as read when it is returned. NELI_HANDLE for NELI_HOST_UNASKED. */
int32_t neli_host_lend(struct neli_host *host, size_t handle, struct neli_lent *lent);

/* Goes on to a handle's next item, so that the one before counts as read; where none waits nothing changes. Both kinds
 * of reads may take turns. NELI_HANDLE if the handle is not open, or is NELI_HOST_UNASKED. */
int32_t neli_host_pass(struct neli_host *host, size_t handle);

/* Takes in all that has arrived, for every handle, and sends what may go out then; it does not wait. A loop over poll(2)
 * or epoll, by level or by edge, calls it when the socket is readable, and then reads what `neli_host_ready` finds.
 * NELI_LINK if the socket failed again and again, and with EAGAIN or ECANCELED if more still arrives when the time of a
 * wait is over, or the waits are stopped; at these and at NELI_MEMORY nothing is lost, and the next call goes on. */
int32_t neli_host_take_in(struct neli_host *host);

/* Finds a handle whose read returns at once: of the requests, in turn, the first that has an item, a loss or its end, so
 * close those that have ended; else that of multicast, or NELI_HOST_UNASKED. It looks at no socket. False if there is
 * none; then `handle` is as it was. */
bool neli_host_ready(struct neli_host *host, size_t *handle);

/* Whether a read of a handle returns at once, as after `neli_host_stop` too; it looks at no socket. A loop over poll(2)
 * sets a wait of 0, sends, reads each handle until the wait has ended (EAGAIN), and sleeps only if none is ready: what
 * one read took in may be another handle's. */
bool neli_host_is_ready(struct neli_host *host, size_t handle);

/* Reports the verdict on the answer to a request, by the items read from it: whether `neli_host_next` returned all of
 * it.
 *   NELI_WAITS          more of it is to be read, or to come
 *   NELI_OK             all of it was read; of a request without an answer: the socket was seen empty
 *   NELI_INTERRUPTED    a message of it is marked with NLM_F_DUMP_INTR: the listed objects changed meanwhile, so
 *                       entries may be missing or repeated
 *   NELI_KERNEL_ERROR   the kernel answered with an error, or ended a dump with one: the code is in `verdict`
 *   NELI_LINK           something was lost, or it was not sent: the number of errno.h is in `verdict`
 *   NELI_SHORT          a datagram could not be read to its end while it was awaited
 *   NELI_UNENDED        the socket was seen empty before its end
 * All but NELI_WAITS are final. That of NELI_MULTICAST is NELI_WAITS; NELI_HANDLE if the handle is not open, or is
 * NELI_HOST_UNASKED. Call it before the handle is closed. */
int32_t neli_host_verdict(struct neli_host *host, size_t handle, struct neli_verdict *verdict);

/* Closes the handle of a request, at any time: messages that still arrive for it are dropped. Or that of multicast.
 * NELI_HANDLE if it is not open. */
int32_t neli_host_close_request(struct neli_host *host, size_t handle);

/* ---- Lists ---- */

/* A list to request. `take` is called with a message that is NULL at the list's beginning, also when it begins anew,
 * and then with each message of it. */
struct neli_dump {
    uint16_t type, flags; /* flags beside NLM_F_DUMP */
    const void *body;
    size_t length;
    int times; /* the maximum number of requests for it; one is always sent */
    void (*take)(const struct neli_host *host, const struct neli_message *message, void *list);
    void *list;
};

/* Requests a list, and repeats this, as a new request, while the kernel marks it as interrupted or is busy with another
 * dump, or a part of it is lost; at most `times` times. Then the list has what arrived last:
 *   NELI_OK             it is complete
 *   NELI_INTERRUPTED    the listed objects changed meanwhile, so entries may be missing or repeated
 *   NELI_KERNEL_ERROR   the kernel refused it, or ended it with an error: `last` is its message for `neli_host_explain`
 *   NELI_LINK           a part of it was lost, or the wait has ended, as `neli_host_fault` reports
 *   NELI_UNENDED        the kernel did not answer it to its end, as a list of routing without the body's header
 * or another code of `neli_host_send` and `neli_host_next`. */
int32_t neli_host_dump(struct neli_host *host, const struct neli_dump *dump, struct neli_message *last);

/* Requests the whole state after NELI_LINK for NELI_MULTICAST, by a dump that is repeated as by `neli_host_dump`.
 * Messages for groups from before each attempt are dropped, since the state includes them; later ones are read as
 * before; apply them to the state. Its codes are those of `neli_host_dump`. */
int32_t neli_host_resync(struct neli_host *host, const struct neli_dump *dump, struct neli_message *last);

/* The same of several lists, as those of links, addresses and routes: what came for groups is dropped, and then each
 * list is requested. One that may be complete when it is requested again is, if its `times` allow so many attempts; after
 * a loss all of this is done again. Its codes are those of the list that was requested last; the later ones are as they
 * were. Without a list it drops what came. It needs a wait above 0. NELI_NULL also if a list has no `take`. */
int32_t neli_host_resync_all(struct neli_host *host, const struct neli_dump *dumps, size_t count,
                             struct neli_message *last);

/* ---- Items ---- */

/* Returns the bytes of the item that was read last, and their number: one message with its padding. They stay until the
 * next read. NULL and 0 if none was read. */
const uint8_t *neli_host_item(const struct neli_host *host);
size_t neli_host_item_length(const struct neli_host *host);

/* Finds the first attribute with this number in the rest of a walk over the item. Returns false if there is none, or if
 * the walk or what comes before it cannot be read; then `found` is as it was. */
bool neli_host_find(const struct neli_host *host, const struct neli_walk *walk, uint16_t number,
                    struct neli_attribute *found);

/* Returns the text of an attribute of the item, which stays as long as the item. NULL if no zero byte ends it, or if
 * its place is not within the item, as that of an attribute of an earlier item may be. */
const char *neli_host_text(const struct neli_host *host, const struct neli_attribute *attribute);

/* Writes why the kernel refused, after NELI_KERNEL_ERROR: the meaning of its number, and if it sent these its text, its
 * offset, and the number of an attribute that is missing, with the place of the nest that lacks it; or the meaning of
 * another code. Where `host` or `message` is null it writes the meaning of the code
 * alone. Nothing if `text` is null. */
void neli_host_explain(const struct neli_host *host, int32_t code, const struct neli_message *message, char *text,
                       size_t room);

/* Writes the same in a line by the names of tables: after NELI_KERNEL_ERROR what neli_diagnosis prints of the request
 * that the error echoes, as `ERANGE: Numerical result out of range: integer out of range: IFLA_GSO_MAX_SIZE = 1,
 * allowed 193..4294967295`. An error that ends a dump, or comes to a socket with NETLINK_CAP_ACK, echoes no body: then
 * it names no attribute. If the tables are null or closed, and after another code, it writes what neli_host_explain
 * does. */
void neli_host_refusal(const struct neli_host *host, struct neli_tables *tables, int32_t code,
                       const struct neli_message *message, char *text, size_t room);

/* ---- Datagrams, for a program that routes nothing ---- */

/* Waits for a datagram of the kernel, which `neli_host_datagram` then returns; its bytes stay until the next call that
 * receives. `group` is the group for which it arrived, or 0. NELI_LINK if the wait has ended or the socket failed, with
 * EMSGSIZE at a datagram of more than a mebibyte, which is lost; the next one may be as long. */
int32_t neli_host_receive(struct neli_host *host, size_t *length, uint32_t *group);
const uint8_t *neli_host_datagram(const struct neli_host *host);

#ifdef __cplusplus
}
#endif
#endif
