#include "play.h"
#include "neli.h"
#include <linux/netlink.h>
#include <stdlib.h>
#include <string.h>

/* Where in an error the header of its request begins. */
#define ECHO (sizeof(struct nlmsghdr) + sizeof(int32_t))

/* The next message of a datagram; its place in `at`. */
static bool next_message(const struct pcap_frame *frame, struct neli_walk *walk, struct neli_message *message,
                         size_t *at) {
    *at = walk->place;
    return neli_next_message(frame->bytes, frame->length, walk, message) == NELI_ITEM;
}

static struct neli_walk walk_of(const struct pcap_frame *frame) {
    return (struct neli_walk){0, frame->length};
}

static bool has_number(const struct pcap_frame *frame, uint32_t number) {
    struct neli_walk walk = walk_of(frame);
    struct neli_message message;
    size_t at;
    while (next_message(frame, &walk, &message, &at))
        if (message.number == number) return true;
    return false;
}

static bool has_requests(const struct play *play, uint16_t protocol) {
    for (size_t i = 0; i < play->count; i++)
        if (play->frames[i].frame.way == PCAP_SENT && play->frames[i].frame.protocol == protocol) return true;
    return false;
}

/* ---- The file ---- */

/* Which way a frame of nlmon went: a request by its flags, or else an answer where a request had its number. */
static enum pcap_way way_of(const struct play *play, const struct pcap_frame *frame) {
    struct neli_walk walk = walk_of(frame);
    struct neli_message first = {0};
    size_t at;
    if (frame->way != PCAP_SENT) return frame->way;
    if (!next_message(frame, &walk, &first, &at) || (first.flags & NLM_F_REQUEST) != 0) return PCAP_SENT;
    for (size_t i = 0; i < play->count; i++) {
        const struct pcap_frame *before = &play->frames[i].frame;
        if (before->way == PCAP_SENT && before->protocol == frame->protocol && has_number(before, first.number))
            return PCAP_RECEIVED;
    }
    return PCAP_GROUP;
}

const char *play_open(struct play *play, const uint8_t *bytes, size_t size) {
    struct pcap_file file = {.bytes = bytes, .size = size};
    const char *why = pcap_open(&file);
    *play = (struct play){0};
    while (why == NULL) {
        struct pcap_frame frame;
        why = pcap_next(&file, &frame);
        if (why != NULL || frame.bytes == NULL) break;
        struct played *grown = realloc(play->frames, (play->count + 1) * sizeof *grown);
        if (grown == NULL) return "memory ran out";
        play->frames = grown;
        frame.way = way_of(play, &frame);
        play->frames[play->count++] = (struct played){.frame = frame};
    }
    return why;
}

/* ---- Requests ---- */

/* Where two requests differ but for their numbers and ports: the first such byte, or -1. */
static long difference(const struct pcap_frame *one, const uint8_t *bytes, size_t length) {
    struct neli_walk walk = walk_of(one);
    struct neli_message message;
    size_t least = one->length < length ? one->length : length, at, place = 0;
    while (next_message(one, &walk, &message, &at)) {
        size_t number = at + offsetof(struct nlmsghdr, nlmsg_seq);
        for (; place < least && place < number; place++)
            if (one->bytes[place] != bytes[place]) return (long)place;
        place = at + sizeof(struct nlmsghdr);
    }
    for (; place < least; place++)
        if (one->bytes[place] != bytes[place]) return (long)place;
    return one->length == length ? -1 : (long)least;
}

/* Notes that a message asks what the recorded number asks. */
static bool note(struct play *play, struct asked asked, const uint8_t *message) {
    struct asked *grown = realloc(play->asked, (play->asked_count + 1) * sizeof *grown);
    if (grown == NULL) return false;
    memcpy(&asked.own_number, message + offsetof(struct nlmsghdr, nlmsg_seq), sizeof asked.own_number);
    memcpy(&asked.own_port, message + offsetof(struct nlmsghdr, nlmsg_pid), sizeof asked.own_port);
    play->asked = grown;
    play->asked[play->asked_count++] = asked;
    return true;
}

static const struct asked *find_asked(const struct play *play, long at, uint16_t protocol, uint32_t number) {
    for (size_t i = 0; i < play->asked_count; i++) {
        const struct asked *it = &play->asked[i];
        if (it->at == at && it->protocol == protocol && it->number == number) return it;
    }
    return NULL;
}

/* Takes a request of a recording that has none: it is that of the first answer whose number was not asked for. */
static void take_any(struct play *play, int socket, uint16_t protocol, const uint8_t *message) {
    for (size_t i = 0; i < play->count; i++) {
        const struct pcap_frame *frame = &play->frames[i].frame;
        struct neli_walk walk = walk_of(frame);
        struct neli_message answer;
        size_t at;
        if (frame->way != PCAP_RECEIVED || frame->protocol != protocol) continue;
        while (next_message(frame, &walk, &answer, &at)) {
            if (find_asked(play, -1, protocol, answer.number) != NULL) continue;
            (void)note(play, (struct asked){.at = -1, .protocol = protocol, .number = answer.number, .socket = socket},
                       message);
            return;
        }
    }
}

long play_send(struct play *play, int socket, uint16_t protocol, const uint8_t *bytes, size_t length) {
    const struct pcap_frame request = {.bytes = bytes, .length = length};
    struct neli_walk walk = walk_of(&request);
    struct neli_message message;
    size_t at;
    long first = (long)length;
    bool is_first = true;
    if (!has_requests(play, protocol)) {
        while (next_message(&request, &walk, &message, &at)) take_any(play, socket, protocol, bytes + at);
        return -1;
    }
    for (size_t i = 0; i < play->count; i++) {
        struct played *it = &play->frames[i];
        if (it->frame.way != PCAP_SENT || it->frame.protocol != protocol || it->is_past) continue;
        long differs = difference(&it->frame, bytes, length);
        if (differs >= 0) {
            if (is_first) first = differs;
            is_first = false;
            continue;
        }
        struct neli_walk recorded = walk_of(&it->frame);
        while (next_message(&it->frame, &recorded, &message, &at))
            (void)note(play, (struct asked){(long)i, protocol, message.number, 0, 0, socket}, bytes + at);
        it->is_past = true;
        return -1;
    }
    return first;
}

/* ---- Answers and notifications ---- */

/* Whether a message of a frame answers a request of the recording; `asked` is that request, where it was sent. */
static bool is_answer(const struct play *play, size_t at, const struct neli_message *message,
                      const struct asked **asked) {
    const struct pcap_frame *frame = &play->frames[at].frame;
    *asked = NULL;
    if (frame->way == PCAP_GROUP && message->port == 0) return false;
    if (!has_requests(play, frame->protocol)) {
        *asked = find_asked(play, -1, frame->protocol, message->number);
        return frame->way == PCAP_RECEIVED;
    }
    for (size_t i = at; i-- > 0;) {
        const struct pcap_frame *before = &play->frames[i].frame;
        if (before->way != PCAP_SENT || before->protocol != frame->protocol) continue;
        if (!has_number(before, message->number) || (before->port != 0 && before->port != message->port)) continue;
        *asked = find_asked(play, (long)i, frame->protocol, message->number);
        return true;
    }
    return false;
}

/* Whether a request that stands before a frame was not sent. */
static bool is_early(const struct play *play, size_t at) {
    for (size_t i = 0; i < at; i++) {
        const struct played *it = &play->frames[i];
        if (it->frame.way == PCAP_SENT && it->frame.protocol == play->frames[at].frame.protocol && !it->is_past)
            return true;
    }
    return false;
}

static bool may_come(const struct play *play, size_t at, int socket, bool is_listening) {
    const struct pcap_frame *frame = &play->frames[at].frame;
    struct neli_walk walk = walk_of(frame);
    struct neli_message message;
    const struct asked *asked;
    size_t place;
    bool has_answer = false;
    while (next_message(frame, &walk, &message, &place)) {
        if (!is_answer(play, at, &message, &asked)) continue;
        if (asked == NULL || asked->socket != socket) return false;
        has_answer = true;
    }
    return has_answer || (is_listening && !is_early(play, at));
}

long play_next(const struct play *play, int socket, uint16_t protocol, bool is_listening) {
    for (size_t i = 0; i < play->count; i++) {
        const struct played *it = &play->frames[i];
        if (it->frame.way == PCAP_SENT || it->frame.protocol != protocol || it->is_past) continue;
        if (may_come(play, i, socket, is_listening)) return (long)i;
    }
    return -1;
}

/* Writes the number and the port of a header. */
static void put_header(uint8_t *header, uint32_t number, uint32_t port) {
    memcpy(header + offsetof(struct nlmsghdr, nlmsg_seq), &number, sizeof number);
    memcpy(header + offsetof(struct nlmsghdr, nlmsg_pid), &port, sizeof port);
}

void play_take(struct play *play, size_t at, uint32_t port, uint8_t *out) {
    const struct pcap_frame *frame = &play->frames[at].frame;
    struct neli_walk walk = walk_of(frame);
    struct neli_message message;
    const struct asked *asked;
    size_t place;
    if (frame->length > 0) memcpy(out, frame->bytes, frame->length);
    while (next_message(frame, &walk, &message, &place)) {
        if (!is_answer(play, at, &message, &asked) || asked == NULL) continue;
        if (message.type == NLMSG_ERROR && message.length >= ECHO + sizeof(struct nlmsghdr))
            put_header(out + place + ECHO, asked->own_number, asked->own_port);
        put_header(out + place, asked->own_number, port);
    }
    play->frames[at].is_past = true;
}

bool play_is_over(const struct play *play, uint16_t protocol) {
    for (size_t i = 0; i < play->count; i++)
        if (play->frames[i].frame.protocol == protocol && !play->frames[i].is_past) return false;
    return true;
}
