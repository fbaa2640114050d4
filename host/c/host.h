/* The inside of `neli_host.h`: a socket, and a session of neli.h over it, which decides who gets what. */
#ifndef HOST_H
#define HOST_H

#include "link.h"
#include "neli_host.h"

struct neli_host {
    struct link link;
    struct neli_session session;
    uint16_t protocol; /* the netlink family */
    struct neli_received held; /* what is to be handed in to the session of the datagram in the link's room */
    int due;                   /* a fault of the link that is to be handed in, or 0 */
    int faults;                /* how many the link had in a row; `link.fault` is why NELI_LINK */
    bool keeps_unasked;
    size_t open;   /* the handle that was looked at last, if it is open: a look costs as much as a read */
    uint8_t *item; /* the message that was read last, with its padding */
    size_t item_length;
};

/* Drops what waits for multicast, or for no request. */
void host_drop(struct neli_host *host, enum neli_reader reader);

#endif
