/* A recording that is played: which datagram comes next on which socket, with the sequence numbers and ports of the
 * requests that were sent. `host/rust/src/recording/play.rs` has the same rules. */
#ifndef PLAY_H
#define PLAY_H

#include "pcap.h"

/* A frame of the recording. */
struct played {
    struct pcap_frame frame;
    bool is_past; /* whether it was sent or received */
};

/* A request that was sent: the index of its frame, or -1 where the recording has no requests; its number there; the
 * number and the port that it states; and who sent it. */
struct asked {
    long at;
    uint16_t protocol;
    uint32_t number, own_number, own_port;
    int socket;
};

struct play {
    struct played *frames;
    size_t count;
    struct asked *asked;
    size_t asked_count;
};

/* Reads a recording out of the bytes of a file, which stay the caller's: why it is none, or NULL. */
const char *play_open(struct play *play, const uint8_t *bytes, size_t size);

/* Takes a request of a socket: -1, or the first byte in which it differs from the request that the recording has next;
 * the length of the request where the recording has no further one. */
long play_send(struct play *play, int socket, uint16_t protocol, const uint8_t *bytes, size_t length);

/* The index of the frame that comes next on a socket of a protocol with this port, or -1. Notifications come where
 * `is_listening`. */
long play_next(const struct play *play, int socket, uint16_t protocol, bool is_listening);

/* Takes a frame, whose bytes are written into `out` with the numbers and the ports of this socket. */
void play_take(struct play *play, size_t at, uint32_t port, uint8_t *out);

/* Whether nothing is left of a protocol. */
bool play_is_over(const struct play *play, uint16_t protocol);

#endif
