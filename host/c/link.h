/* A netlink socket that returns the kernel's datagrams, whole, and whose waits end; or what the caller has in place of
 * one. `host.c` uses it.
 *
 * Calls return a code of neli.h. NELI_LINK means that the socket failed, or that a wait has ended: `fault` is then the
 * number in errno.h. A wait ends with EAGAIN after its time, with EINTR by a signal, with ECANCELED if it was
 * stopped. */
#ifndef LINK_H
#define LINK_H

#include "neli_host.h"

struct link {
    int fd, stop; /* the socket, or -1, and what can be read once the waits are stopped */
    struct neli_transport over; /* in place of a socket; its functions are null where there is one */
    uint32_t port;
    int fault;
    int wait;             /* how many milliseconds a call waits in all; without end below 0, as at first */
    bool ends_by_signals; /* whether a signal ends a wait; at first it goes on */
    bool is_full;         /* whether the last datagram could not be sent yet */
    bool is_empty;        /* nothing was there, and nothing more comes for what was sent before */
    uint8_t *room;        /* the datagram that was received last */
    size_t size;
};

/* Opens a socket of a netlink family in these groups. `link_close` closes it, even after a refusal. */
int32_t link_open(struct link *link, int family, const uint32_t *groups, size_t count);
int32_t link_open_over(struct link *link, uint32_t port, const struct neli_transport *over);
void link_close(struct link *link);

/* Makes the kernel check all fields of a dump's request, and refuse those that it does not know: only then can a dump
 * list the objects of one link. */
int32_t link_set_strict(struct link *link);

/* Sends a datagram; NELI_WAITS if that would block. */
int32_t link_send(struct link *link, const uint8_t *bytes, size_t length);

/* Receives the kernel's next datagram into `room`; another sender's is skipped. NELI_WAITS if none has arrived. One of
 * more than a mebibyte is NELI_LINK with EMSGSIZE: it is lost, and the next one may be as long. A last padding that was
 * left out is added. */
int32_t link_receive(struct link *link, struct neli_received *received);

/* The end of a wait that begins now, for `link_wait`. */
int64_t link_end_of_wait(const struct link *link);

/* Waits until a datagram may have arrived, or one that could not be sent may be: NELI_OK, or NELI_LINK if the wait has
 * ended. Where one has come that is not waited for, it says at once whether the wait goes on: one for no time goes on
 * until none is left. */
int32_t link_wait(struct link *link, int64_t end, bool has_come);

/* Whether all waits were ended. */
bool link_is_stopped(const struct link *link);

/* Ends every current wait, and each later one. Any thread may call it, and a signal's handler. */
void link_stop(const struct link *link);

#endif
