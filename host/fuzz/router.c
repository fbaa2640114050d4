/* The router by any calls, against a model: the receivers, and the ends of answers, by docs/ROUTER.md. Datagrams lie
 * beside pages that nothing may touch. A script may have an allocation refused: then the call changes nothing, and is
 * repeated. */
#include "../c/refused.h"
#include "guard.h"

#define HANDLES 12
#define WAITING 64
#define PORT 7

enum kind { MESSAGE, STRAY, REFUSED, LOST };

/* A delivery that waits for a handle: a message, with its padding, or a fault. */
struct delivery {
    enum kind kind;
    uint8_t bytes[256]; /* a length of one byte is the largest that a script states */
    size_t length;
};

struct handle {
    bool is_open, needs_ack, has_single, is_ended;
    uint32_t number;
    size_t count;
    struct delivery waits[WAITING];
};

static struct handle handles[HANDLES];
static size_t handle_count, freed[HANDLES], freed_count;
static uint32_t next_number;
static struct neli_router router;
static uint8_t *in, *out;

/* ---- The model ---- */

static bool has_number(const struct handle *handle) {
    return handle->is_open && handle != &handles[NELI_MULTICAST];
}

static void deliver(struct handle *handle, enum kind kind, const uint8_t *bytes, size_t length) {
    WANT(handle->count < WAITING && length <= sizeof handle->waits->bytes);
    struct delivery *it = &handle->waits[handle->count++];
    *it = (struct delivery){.kind = kind, .length = length};
    if (length > 0) memcpy(it->bytes, bytes, length);
}

static void deliver_all(enum kind kind, const uint8_t *bytes, size_t length) {
    for (size_t i = 0; i < handle_count; i++)
        if (has_number(&handles[i])) deliver(&handles[i], kind, bytes, length);
}

static void deliver_message(const uint8_t *at, size_t length, bool is_group) {
    if (is_group) {
        if (handles[NELI_MULTICAST].is_open) deliver(&handles[NELI_MULTICAST], MESSAGE, at, length);
        return;
    }
    for (size_t i = 0; i < handle_count; i++)
        if (has_number(&handles[i]) && u32_at(at + 12) == PORT && handles[i].number == u32_at(at + 8))
            return deliver(&handles[i], MESSAGE, at, length);
    deliver_all(STRAY, at, length);
}

/* Whether bytes are attributes to their end. */
static bool are_attributes(const uint8_t *at, size_t left) {
    size_t size = 0;
    int32_t code;
    while ((code = frame(left, 4, stated_at(at, left, 4), &size)) == NELI_ITEM) at += size, left -= size;
    return code == NELI_END;
}

/* Whether a message can be read, by the payload of its type. */
static bool is_readable(const uint8_t *at) {
    uint32_t type = u16_at(at + 4), flags = u16_at(at + 6);
    size_t left = u32_at(at) - 16;
    const uint8_t *payload = at + 16;
    if (type == 3 && flags & 2 && left > 0) return left >= 4 && are_attributes(payload + 4, left - 4);
    if (type != 2) return true;
    if (left < 20) return false;
    size_t echoed = u32_at(payload + 4), place = 4 + padded(echoed);
    if (flags & 0x100) return !(flags & 0x200) || are_attributes(payload + 20, left - 20);
    if (u32_at(payload) == 0) return true;
    if (echoed < 16 || echoed > left - 4) return false;
    return place >= left || are_attributes(payload + place, left - place);
}

/* A code with the reason why bytes cannot be read. */
#define UNREADABLE 4711

static bool is_unreadable(int32_t code) {
    return code == NELI_SHORT || code == NELI_LENGTH || code == NELI_BYTES;
}

/* A datagram ends at the first message that cannot be read; every handle with a number gets this. */
static void deliver_datagram(const uint8_t *bytes, size_t length, bool is_group) {
    size_t size = 0;
    for (size_t place = 0;; place += size) {
        size_t left = length - place;
        int32_t code = frame(left, 16, stated_at(bytes + place, left, 16), &size);
        if (code == NELI_END) return;
        if (code != NELI_ITEM || !is_readable(bytes + place)) return deliver_all(REFUSED, NULL, 0);
        deliver_message(bytes + place, size, is_group);
    }
}

/* The code of the handle's next item, by the reply rule, or UNREADABLE. */
static int32_t answer(struct handle *handle, const struct delivery *it) {
    uint32_t type = u16_at(it->bytes + 4), flags = u16_at(it->bytes + 6);
    handle->is_ended = true;
    if (it->kind == LOST) return NELI_LINK;
    if (it->kind == REFUSED) return UNREADABLE;
    if (it->kind == STRAY) return NELI_STRAY;
    if (type == 2 && u32_at(it->bytes + 16) == 0) return handle->needs_ack ? NELI_ITEM : NELI_UNEXPECTED_ACK;
    if (handle->has_single) return NELI_NO_ACK;
    if (type == 2) return NELI_KERNEL_ERROR;
    bool is_end = type == 3 && flags & 2 && u32_at(it->bytes) > 16;
    bool is_single = handle != &handles[NELI_MULTICAST] && (!(flags & 2) || type == 3 || is_end);
    handle->has_single = is_single;
    handle->is_ended = is_single && !handle->needs_ack;
    return NELI_ITEM;
}

/* ---- The calls ---- */

static void try_send(struct script *script) {
    uint8_t body[64] = {0};
    struct neli_sent sent = {0};
    uint16_t type = (uint16_t)(next_byte(script) % 40), flags = (uint16_t)(next_byte(script) % 64 << 4);
    size_t length = next_byte(script) % sizeof body, size = 16 + padded(length), room = size;
    bool is_used = false;
    int32_t code;
    flags = (uint16_t)((flags & ~4u) | (next_byte(script) & 4u));
    if (next_byte(script) % 8 == 0) room = next_byte(script) % 80u;
    if (freed_count == 0 && handle_count == HANDLES) return;
    for (size_t i = 0; i < handle_count; i++) is_used |= has_number(&handles[i]) && handles[i].number == next_number;
    for (size_t i = 0; i < length; i++) body[i] = next_byte(script);
    uint8_t *to = out + ROOM - room;
    CALLED(code, neli_router_send(&router, type, flags, body, length, to, room, &sent));
    WANT(code == (size > room ? NELI_ROOM : is_used ? NELI_IN_USE : NELI_OK));
    if (code == NELI_ROOM) WANT(sent.length == size);
    if (code != NELI_OK) return;
    size_t place = freed_count > 0 ? freed[--freed_count] : handle_count++;
    WANT(sent.length == size && sent.handle == place && u32_at(to) == size && u16_at(to + 4) == type);
    WANT(u16_at(to + 6) == (flags | 1u) && u32_at(to + 8) == next_number && u32_at(to + 12) == PORT);
    WANT(memcmp(to + 16, body, length) == 0);
    handles[place] = (struct handle){.is_open = true, .number = next_number++};
    handles[place].needs_ack = (flags & 4) && (flags & 0x300) != 0x300;
}

/* A message of the script: often the answer to an open request. */
static size_t written(struct script *script, uint8_t *to) {
    static const uint8_t types[] = {2, 2, 3, 16};
    uint8_t choice = next_byte(script), flags = next_byte(script);
    size_t length = 16 + next_byte(script) % 64;
    const struct handle *handle = &handles[choice / 4 % HANDLES];
    memset(to, 0, padded(length));
    for (size_t i = 16; i < length; i++) to[i] = next_byte(script);
    uint32_t number = choice < 240 ? handle->number : next_byte(script);
    uint32_t kind = types[choice % 4] | (uint32_t)(flags & 2) << 16 | (uint32_t)(flags & 12) << 22;
    uint32_t words[] = {(uint32_t)length, kind, number, flags & 0xf0 ? PORT : next_byte(script)};
    if (flags == 255) words[0] = next_byte(script);
    memcpy(to, words, sizeof words);
    if (choice % 4 == 0 && length >= 36 && flags & 16) memset(to + 16, 0, 4);
    return padded(length);
}

static void try_datagram(struct script *script) {
    static uint8_t bytes[ROOM];
    uint32_t groups[2] = {0};
    uint8_t choice = next_byte(script);
    size_t length = 0, group_count = choice % 3;
    bool is_group = false;
    int32_t code;
    for (size_t i = 0; i < HANDLES; i++)
        if (handles[i].count + 8 > WAITING) return;
    for (size_t i = 0; i < choice / 3 % 4u; i++) length += written(script, bytes + length);
    if (choice > 224 && length > 0) length -= next_byte(script) % length;
    for (size_t i = 0; i < group_count; i++) is_group |= (groups[i] = next_byte(script) % 4) != 0;
    const uint8_t *at = placed(in, bytes, length, choice % 2);
    CALLED(code, neli_router_datagram(&router, at, length, groups, group_count));
    WANT(code == NELI_OK);
    deliver_datagram(bytes, length, is_group);
}

static void try_fault(struct script *script) {
    int32_t number = next_byte(script), code;
    for (size_t i = 0; i < HANDLES; i++)
        if (handles[i].count + 8 > WAITING) return;
    CALLED(code, neli_router_fault(&router, number));
    WANT(code == NELI_OK);
    if (number != 11) deliver_all(LOST, NULL, 0);
}

/* The item that was read, and its bytes. Those of an answer are written anew, as far as it was read. */
static void want_item(const struct delivery *it, int32_t wanted, const struct neli_item *item) {
    size_t length = 0, size = padded(u32_at(it->bytes));
    int32_t code;
    CALLED(code, neli_router_item(&router, out, 0, &length));
    WANT(code == NELI_ROOM && length >= 16 && length % 4 == 0 && length <= size);
    uint8_t *to = out + ROOM - length;
    CALLED(code, neli_router_item(&router, to, length, &length));
    WANT(code == NELI_OK && u32_at(to) == length && u16_at(to + 4) == item->type);
    if (wanted == NELI_KERNEL_ERROR) {
        /* Number and port are those of the request, which the error repeats. */
        WANT(item->type == 2 && (uint32_t)item->error == u32_at(it->bytes + 16));
        WANT(item->number == u32_at(it->bytes + 28) && item->port == u32_at(it->bytes + 32));
        return;
    }
    WANT(item->type == u16_at(it->bytes + 4) && item->flags == u16_at(it->bytes + 6));
    WANT(item->number == u32_at(it->bytes + 8) && item->port == u32_at(it->bytes + 12));
    bool is_answer = item->type == 2 || (item->type == 3 && item->flags & 2);
    /* The length of another is that with its padding. */
    if (!is_answer) WANT(length == size && memcmp(to + 4, it->bytes + 4, u32_at(it->bytes) - 4) == 0);
}

static void try_read(struct script *script) {
    size_t place = next_byte(script) % (HANDLES + 2);
    struct neli_item item = {0};
    int32_t code, wanted;
    CALLED(code, neli_router_read(&router, place, &item));
    if (place >= handle_count || !handles[place].is_open) {
        WANT(code == NELI_HANDLE);
        return;
    }
    struct handle *handle = &handles[place];
    struct delivery first = handle->waits[0];
    if (handle->is_ended || handle->count == 0) {
        WANT(code == (handle->is_ended ? NELI_END : NELI_WAITS));
        return;
    }
    wanted = answer(handle, &first);
    WANT(wanted == UNREADABLE ? is_unreadable(code) : code == wanted);
    memmove(handle->waits, handle->waits + 1, --handle->count * sizeof first);
    if (code == NELI_ITEM || code == NELI_KERNEL_ERROR) want_item(&first, wanted, &item);
}

static void try_close(struct script *script) {
    size_t place = next_byte(script) % (HANDLES + 2);
    int32_t code;
    CALLED(code, neli_router_close(&router, place));
    if (place >= handle_count || !handles[place].is_open) {
        WANT(code == NELI_HANDLE);
        return;
    }
    WANT(code == NELI_OK);
    handles[place].is_open = false;
    handles[place].count = 0;
    if (place != NELI_MULTICAST) freed[freed_count++] = place;
}

int LLVMFuzzerTestOneInput(const uint8_t *data, size_t size);

int LLVMFuzzerTestOneInput(const uint8_t *data, size_t size) {
    struct script script = {data, size};
    if (in == NULL) in = guarded(), out = guarded();
    memset(handles, 0, sizeof handles);
    handles[NELI_MULTICAST].is_open = true;
    handle_count = 1;
    freed_count = 0;
    next_number = 0;
    WANT(neli_router_new(&router, PORT) == NELI_OK);
    while (script.left > 0) {
        uint8_t what = next_byte(&script);
        left_to_refusal = what >= 192 ? next_byte(&script) % 8 : 0;
        switch (what % 8) {
        case 0: try_send(&script); break;
        case 1:
        case 2: try_datagram(&script); break;
        case 3: try_fault(&script); break;
        case 4:
        case 5: try_read(&script); break;
        case 6: try_close(&script); break;
        default:
            next_number = next_byte(&script);
            WANT(neli_router_set_number(&router, next_number) == NELI_OK);
        }
    }
    left_to_refusal = 0;
    WANT(neli_router_free(&router) == NELI_OK && neli_router_free(&router) == NELI_OK);
    return 0;
}
