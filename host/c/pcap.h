/* Recordings as files: pcap with the link type of netlink, which Wireshark, tcpdump and neli_show read. */
#ifndef PCAP_H
#define PCAP_H

#include <stdbool.h>
#include <stddef.h>
#include <stdint.h>

/* Where a datagram went, as the type of a frame in its cooked header. */
enum pcap_way {
    PCAP_RECEIVED = 0, /* from the kernel to the port */
    PCAP_GROUP = 2,    /* from the kernel to a multicast group */
    PCAP_SENT = 4      /* to the kernel */
};

/* A datagram that passed over a socket of this protocol, NETLINK_ROUTE or another. */
struct pcap_frame {
    enum pcap_way way;
    uint32_t group; /* of PCAP_GROUP: its number; 0 where the file does not state it */
    uint32_t port;  /* of PCAP_SENT: that of the socket, or 0 likewise */
    uint16_t protocol;
    const uint8_t *bytes;
    size_t length;
};

/* Opens a file to append frames to, by several processes at the same time; or returns -1. Without `goes_on` what it had
 * is removed. */
int pcap_create(const char *path, bool goes_on);

/* Writes the header of a file. False, with errno, if not all of it is written. */
bool pcap_begin(int file);

/* Writes a frame that passed now, at once. The group or the port stands in it as an address of four bytes. False, with
 * errno, if not all of it is written. */
bool pcap_put(int file, const struct pcap_frame *frame);

/* A file that is in memory, and the place of its next frame. */
struct pcap_file {
    const uint8_t *bytes;
    size_t size, place;
    bool is_turned; /* whether its numbers are in the other byte order */
};

/* Reads the header of a file: why it is none of netlink's, or NULL. */
const char *pcap_open(struct pcap_file *file);

/* Reads the next frame: why it can't be read, or NULL. At the end its bytes are NULL. What `nlmon` recorded is
 * PCAP_SENT, whichever way it went. */
const char *pcap_next(struct pcap_file *file, struct pcap_frame *frame);

#endif
