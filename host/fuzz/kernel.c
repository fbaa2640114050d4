/* The kernel to test against by any calls, against a model of a few lines: docs/SIMULATOR.md. What is read and written
 * lies beside pages that nothing may touch. A script may have an allocation refused: then the call changes nothing, and
 * the same call is made again. */
#include "../c/refused.h"
#include "guard.h"

#define PORT 7
#define DATAGRAMS 64

/* ---- The model ---- */

static uint8_t *in, *extra, *out, wanted[ROOM];
static struct neli_request request, asked; /* what was read last, and what the dump answers */
static struct neli_kernel_dump dump = NELI_KERNEL_DUMP_CLOSED;

/* The datagrams of the dump, where each ends, and how many were handed out. */
static uint8_t packed[ROOM];
static size_t ends[DATAGRAMS + 1], datagrams, given, limit;
static bool is_open, is_finished;

static void put_u32(uint8_t *at, uint32_t number) {
    for (size_t i = 0; i < 4; i++) at[i] = (uint8_t)(number >> 8 * i);
}

/* A message as `wanted`, with zeros up to a multiple of four: its length. */
static size_t message(uint16_t type, uint32_t flags, uint32_t number, uint32_t port, const uint8_t *body,
                      size_t length) {
    size_t size = padded(16 + length);
    memset(wanted, 0, size);
    put_u32(wanted, (uint32_t)size);
    put_u32(wanted + 4, type | flags << 16);
    put_u32(wanted + 8, number);
    put_u32(wanted + 12, port);
    if (length > 0) memcpy(wanted + 16, body, length);
    return size;
}

/* Whether bytes are attributes to their end; how many bytes they have where they are written again, in `size`. */
static bool are_attributes(const uint8_t *at, size_t left) {
    size_t size = 0;
    int32_t code;
    while ((code = frame(left, 4, stated_at(at, left, 4), &size)) == NELI_ITEM) at += size, left -= size;
    return code == NELI_END;
}

/* Copies attributes with zeros as padding. */
static size_t attributes(uint8_t *to, const uint8_t *at, size_t length) {
    for (size_t place = 0; place < length; place += padded(u16_at(at + place))) {
        size_t size = u16_at(at + place);
        memset(to + place, 0, padded(size));
        memcpy(to + place, at + place, size);
    }
    return length;
}

/* A message goes behind the last one where the limit allows, and else begins the next datagram. */
static bool put(size_t size) {
    size_t begin = datagrams > 0 ? ends[datagrams - 1] : 0;
    if (size > limit) return false;
    if (ends[datagrams] - begin > limit - size) ends[datagrams + 1] = ends[datagrams], datagrams++;
    memcpy(packed + ends[datagrams], wanted, size);
    ends[datagrams] += size;
    return true;
}

static bool is_unreadable(int32_t code) {
    return code == NELI_SHORT || code == NELI_LENGTH || code == NELI_BYTES;
}

/* ---- The calls ---- */

/* Bytes of the script at the end of a room. */
static const uint8_t *taken(struct script *script, uint8_t *room, size_t *length) {
    static uint8_t bytes[256];
    size_t count = next_byte(script) % 96u;
    for (size_t i = 0; i < count; i++) bytes[i] = next_byte(script);
    *length = count;
    return placed(room, bytes, count, true);
}

/* Attributes of the script, often well formed. */
static const uint8_t *listed(struct script *script, size_t *length) {
    static uint8_t bytes[128];
    uint8_t choice = next_byte(script);
    if (choice >= 224) return taken(script, extra, length);
    *length = 0;
    for (size_t i = 0; i < choice % 3u; i++) {
        size_t size = 4 + next_byte(script) % 16u;
        uint8_t *at = bytes + *length;
        memset(at, 0, padded(size));
        at[0] = (uint8_t)size, at[2] = (uint8_t)(1 + next_byte(script) % 8u);
        for (size_t k = 4; k < size; k++) at[k] = next_byte(script);
        *length += padded(size);
    }
    return placed(extra, bytes, *length, true);
}

/* What a call wrote is `wanted`, or where there is no room nothing. */
static void want_written(int32_t code, const uint8_t *at, size_t room, size_t length, size_t size) {
    WANT(length == size && code == (size <= room ? NELI_OK : NELI_ROOM));
    if (code == NELI_OK) WANT(memcmp(at, wanted, size) == 0);
}

static void try_request(struct script *script) {
    size_t length;
    const uint8_t *at = taken(script, in, &length);
    struct neli_walk walk = {0, length}, single = walk;
    struct neli_message it;
    struct neli_request found;
    int32_t code = neli_next_request(at, length, &walk, PORT, &found);
    WANT(code == neli_next_message(at, length, &single, &it));
    if (code != NELI_ITEM) return;
    uint32_t flags = it.flags;
    WANT(memcmp(&it, &found.message, sizeof it) == 0 && walk.place == single.place && found.port == PORT);
    WANT(found.is_handled == ((flags & 1) && it.type >= 16) && found.wants_acknowledgement == (flags >> 2 & 1));
    WANT(found.wants_dump == ((flags & 0x300) == 0x300) && found.wants_echo == (flags >> 3 & 1));
    WANT(found.wants_routing_dump == (it.type % 4 == 2 && (flags & 0x300) != 0));
    WANT((neli_answering(16, it.type, it.flags, 0) == NELI_ANSWERING_DUMP) == (it.type >= 16 && found.wants_dump));
    request = found;
}

/* An acknowledgement, a capped error, or a whole one, of which the request lies in bytes of the script. */
static void try_answer(struct script *script) {
    uint8_t choice = next_byte(script), payload[512];
    size_t sent_length, length, size = 4711, room = next_byte(script), place = 20;
    int32_t code, error = (int32_t)next_byte(script) - 128;
    const uint8_t *list = listed(script, &length), *sent = taken(script, in, &sent_length);
    uint8_t *to = out + ROOM - room;
    const struct neli_message *it = &request.message;
    bool is_whole = choice % 3 == 2;
    uint32_t flags = (is_whole ? 0 : 0x100u) | (length > 0 ? 0x200u : 0);
    if (choice % 3 == 0) CALLED(code, neli_kernel_ack(&request, list, length, to, room, &size));
    else if (!is_whole) CALLED(code, neli_kernel_capped_error(&request, error, list, length, to, room, &size));
    else CALLED(code, neli_kernel_error(sent, sent_length, &request, error, list, length, to, room, &size));
    if (is_whole && (it->payload > sent_length || it->payload_length > sent_length - it->payload)) {
        WANT(code == NELI_PLACE && size == 4711);
        return;
    }
    if (!are_attributes(list, length)) {
        WANT(is_unreadable(code) && size == 4711);
        return;
    }
    put_u32(payload, choice % 3 == 0 ? 0 : (uint32_t)error);
    put_u32(payload + 4, it->length);
    put_u32(payload + 8, it->type | (uint32_t)it->flags << 16);
    put_u32(payload + 12, it->number);
    put_u32(payload + 16, it->port);
    if (is_whole) {
        memset(payload + place, 0, padded(it->payload_length));
        if (it->payload_length > 0) memcpy(payload + place, sent + it->payload, it->payload_length);
        place += padded(it->payload_length);
    }
    place += attributes(payload + place, list, length);
    want_written(code, to, room, size, message(2, flags, it->number, request.port, payload, place));
}

/* A reply, or a notification. */
static void try_message(struct script *script) {
    uint16_t type = next_byte(script), flags = (uint16_t)(next_byte(script) << 4);
    uint8_t choice = next_byte(script);
    size_t length, size, room = next_byte(script);
    uint8_t *to = out + ROOM - room;
    const uint8_t *body = taken(script, in, &length);
    int32_t code;
    if (choice % 2) CALLED(code, neli_kernel_reply(&request, type, flags, body, length, to, room, &size));
    else CALLED(code, neli_kernel_notification(type, flags, choice, room & 3, body, length, to, room, &size));
    uint32_t number = choice % 2 ? request.message.number : choice, port = choice % 2 ? request.port : room & 3;
    want_written(code, to, room, size, message(type, flags, number, port, body, length));
}

static void try_open(struct script *script) {
    size_t most = next_byte(script);
    int32_t code;
    CALLED(code, neli_kernel_dump_new(&dump, &request, most));
    WANT(code == (is_open ? NELI_STATE : NELI_OK));
    if (is_open) return;
    asked = request, is_open = true, is_finished = false, limit = most, datagrams = given = 0, ends[0] = 0;
}

static void try_push(struct script *script) {
    uint16_t type = next_byte(script), flags = (uint16_t)(next_byte(script) << 4);
    uint8_t choice = next_byte(script);
    size_t length;
    const uint8_t *body = taken(script, in, &length);
    uint32_t multi = choice % 2 ? 2 : 0;
    int32_t code;
    if (datagrams + 1 >= DATAGRAMS || ends[datagrams] + 256 > ROOM) return;
    if (multi) CALLED(code, neli_kernel_dump_push(&dump, type, flags, body, length));
    else CALLED(code, neli_kernel_dump_push_reply(&dump, type, flags, body, length));
    if (!is_open || is_finished) {
        WANT(code == NELI_STATE);
        return;
    }
    size_t size = message(type, flags | multi, asked.message.number, asked.port, body, length);
    WANT(code == (put(size) ? NELI_OK : NELI_LENGTH));
}

static void try_begin(void) {
    int32_t code;
    if (datagrams + 1 >= DATAGRAMS) return;
    CALLED(code, neli_kernel_dump_begin_datagram(&dump));
    WANT(code == (is_open && !is_finished ? NELI_OK : NELI_STATE));
    if (code == NELI_OK && ends[datagrams] > (datagrams > 0 ? ends[datagrams - 1] : 0))
        ends[datagrams + 1] = ends[datagrams], datagrams++;
}

static void try_finish(struct script *script) {
    uint16_t flags = (uint16_t)(next_byte(script) << 4 & 0xf0);
    int32_t code, error = (int32_t)next_byte(script) - 128;
    uint8_t payload[256];
    size_t length;
    const uint8_t *list = listed(script, &length);
    if (datagrams + 1 >= DATAGRAMS) return;
    CALLED(code, neli_kernel_dump_finish(&dump, flags, error, list, length));
    if (!is_open || is_finished) {
        WANT(code == NELI_STATE);
        return;
    }
    if (!are_attributes(list, length)) {
        WANT(is_unreadable(code));
        return;
    }
    put_u32(payload, (uint32_t)error);
    attributes(payload + 4, list, length);
    uint32_t all = flags | 2u | (length > 0 ? 0x200u : 0);
    is_finished = put(message(3, all, asked.message.number, asked.port, payload, 4 + length));
    WANT(code == (is_finished ? NELI_OK : NELI_LENGTH));
}

static void try_next(struct script *script) {
    size_t size = 4711, room = next_byte(script), begin = given > 0 ? ends[given - 1] : 0;
    uint8_t *to = out + ROOM - room;
    int32_t code = neli_kernel_dump_next(&dump, to, room, &size);
    if (!is_open || !is_finished || given > datagrams) {
        WANT(code == (!is_open ? NELI_STATE : !is_finished ? NELI_WAITS : NELI_END) && size == 4711);
        return;
    }
    WANT(size == ends[given] - begin && code == (size <= room ? NELI_ITEM : NELI_ROOM));
    if (code != NELI_ITEM) return;
    WANT(memcmp(to, packed + begin, size) == 0);
    given++;
}

static void close_dump(void) {
    WANT(neli_kernel_dump_free(&dump) == NELI_OK);
    is_open = false;
    datagrams = given = ends[0] = 0;
}

int LLVMFuzzerTestOneInput(const uint8_t *data, size_t size);

int LLVMFuzzerTestOneInput(const uint8_t *data, size_t size) {
    struct script script = {data, size};
    if (in == NULL) in = guarded(), extra = guarded(), out = guarded();
    memset(&request, 0, sizeof request);
    while (script.left > 0) {
        uint8_t what = next_byte(&script);
        left_to_refusal = what >= 192 ? next_byte(&script) % 8 : 0;
        switch (what % 10) {
        case 0: try_request(&script); break;
        case 1: try_answer(&script); break;
        case 2: try_message(&script); break;
        case 3: try_open(&script); break;
        case 4:
        case 5: try_push(&script); break;
        case 6: try_begin(); break;
        case 7: try_finish(&script); break;
        case 8: try_next(&script); break;
        default: left_to_refusal = 0, close_dump();
        }
        left_to_refusal = 0;
    }
    close_dump();
    return 0;
}
