/* Recordings of any bytes, read and played: each frame comes once at most, and is rewritten in headers alone. The bytes
 * lie beside pages that nothing may touch. */
#include "guard.h"
#include "play.h"
#include <linux/netlink.h>

#define SOCKET 3
#define PORT 77u

static uint8_t *room;

/* Whether two datagrams are the same but for sequence numbers and ports, in headers and in those that errors echo. */
static void want_rewritten(const struct pcap_frame *frame, const uint8_t *out) {
    struct neli_walk walk = {0, frame->length};
    struct neli_message message;
    uint8_t *free_bytes = calloc(frame->length + 1, 1);
    for (size_t at = 0; neli_next_message(frame->bytes, frame->length, &walk, &message) == NELI_ITEM; at = walk.place) {
        size_t echo = at + 20 + 8;
        memset(free_bytes + at + 8, 1, 8);
        if (message.type == NLMSG_ERROR && message.length >= 36) memset(free_bytes + echo, 1, 8);
    }
    for (size_t i = 0; i < frame->length; i++) WANT(free_bytes[i] != 0 || out[i] == frame->bytes[i]);
    free(free_bytes);
}

/* Takes all that comes, and gives how many came. */
static size_t taken(struct play *play, uint16_t protocol, bool is_listening) {
    size_t count = 0;
    long at;
    while ((at = play_next(play, SOCKET, protocol, is_listening)) >= 0) {
        struct played *it = &play->frames[at];
        WANT((size_t)at < play->count && !it->is_past && it->frame.way != PCAP_SENT && it->frame.protocol == protocol);
        uint8_t *out = malloc(it->frame.length + 1);
        play_take(play, (size_t)at, PORT, out);
        WANT(it->is_past);
        want_rewritten(&it->frame, out);
        free(out);
        count++;
    }
    return count;
}

/* Sends a request of the recording with another number and port, and wants it to be taken. */
static void send_again(struct play *play, const struct pcap_frame *frame) {
    uint8_t *own = malloc(frame->length + 1);
    struct neli_walk walk = {0, frame->length};
    struct neli_message message;
    memcpy(own, frame->bytes, frame->length);
    for (size_t at = 0; neli_next_message(frame->bytes, frame->length, &walk, &message) == NELI_ITEM; at = walk.place)
        memset(own + at + 8, 0x5a, 8);
    WANT(play_send(play, SOCKET, frame->protocol, own, frame->length) == -1);
    free(own);
}

int LLVMFuzzerTestOneInput(const uint8_t *bytes, size_t length) {
    struct play play;
    if (room == NULL) room = guarded();
    if (length > ROOM) return 0;
    uint8_t *file = placed(room, bytes, length, true);
    const char *why = play_open(&play, file, length);
    uint16_t protocol = play.count > 0 ? play.frames[0].frame.protocol : 0;
    size_t came = why == NULL ? taken(&play, protocol, true) : 0;
    for (size_t i = 0; why == NULL && i < play.count; i++) {
        const struct played *it = &play.frames[i];
        if (it->frame.way != PCAP_SENT || it->frame.protocol != protocol) continue;
        if (!it->is_past) send_again(&play, &it->frame);
        came += taken(&play, protocol, i % 2 == 0);
    }
    if (why == NULL) {
        long differs = play_send(&play, SOCKET, protocol, file, length);
        WANT(differs >= -1 && differs <= (long)length);
        came += taken(&play, protocol, true);
        WANT(came <= play.count && (!play_is_over(&play, protocol) || came <= play.count));
    }
    free(play.frames);
    free(play.asked);
    return 0;
}
