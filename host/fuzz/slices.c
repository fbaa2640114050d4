/* Reading and writing by slices, on any bytes, against a model of a few lines. The bytes read and written lie beside
 * pages that nothing may touch. */
#include "guard.h"

#define SEVERAL 5

static uint8_t *in, *out;

/* Numbers at a place, the text, and the answer of a message. */
static void try_values(const uint8_t *bytes, size_t length, size_t place) {
    uint8_t one, *text = memchr(bytes, 0, length);
    uint16_t two, be_two;
    uint32_t four, be_four;
    uint64_t eight, be_eight, model = 0;
    size_t found, left = place < length ? length - place : 0;
    for (size_t i = 0; i < 8 && i < left; i++) model |= (uint64_t)bytes[place + i] << 8 * i;
    WANT(neli_get_u8(bytes, length, place, &one) == (left < 1 ? NELI_SHORT : NELI_OK));
    WANT(left < 1 || one == (uint8_t)model);
    WANT(neli_get_u16(bytes, length, place, &two) == (left < 2 ? NELI_SHORT : NELI_OK));
    WANT(neli_get_be16(bytes, length, place, &be_two) == (left < 2 ? NELI_SHORT : NELI_OK));
    WANT(left < 2 || (two == (uint16_t)model && be_two == __builtin_bswap16(two)));
    WANT(neli_get_u32(bytes, length, place, &four) == (left < 4 ? NELI_SHORT : NELI_OK));
    WANT(neli_get_be32(bytes, length, place, &be_four) == (left < 4 ? NELI_SHORT : NELI_OK));
    WANT(left < 4 || (four == (uint32_t)model && be_four == __builtin_bswap32(four)));
    WANT(neli_get_u64(bytes, length, place, &eight) == (left < 8 ? NELI_SHORT : NELI_OK));
    WANT(neli_get_be64(bytes, length, place, &be_eight) == (left < 8 ? NELI_SHORT : NELI_OK));
    WANT(left < 8 || (eight == model && be_eight == __builtin_bswap64(eight)));
    WANT(neli_text_length(bytes, length, &found) == (text == NULL ? NELI_TEXT : NELI_OK));
    WANT(text == NULL || found == (size_t)(text - bytes));
}

static bool is_attribute(const struct neli_attribute *it, const uint8_t *bytes, size_t place) {
    uint32_t type = u16_at(bytes + place + 2);
    return it->length == u16_at(bytes + place) && it->type == type && it->number == (type & 0x3fff) &&
           it->flags == (type & 0xc000) && it->payload == place + 4 && it->payload_length == it->length - 4u;
}

/* A walk over attributes: each by a call of its own, several at once, and the first one with its number. */
static void try_attributes(const uint8_t *bytes, size_t length, struct neli_walk walk, int depth) {
    struct neli_walk model = walk, several = walk, start = walk, inner;
    struct neli_attribute one = {0}, found, kept[SEVERAL], *many = (void *)(out + ROOM - SEVERAL * sizeof one);
    int32_t code, wanted;
    size_t size = 0, count = 0, at = 0, first = length;
    while (true) {
        size_t left = model.end - model.place;
        wanted = frame(left, 4, stated_at(bytes + model.place, left, 4), &size);
        code = neli_next_attribute(bytes, length, &walk, &one);
        WANT(code == wanted);
        if (at == count) {
            WANT(neli_next_attributes(bytes, length, &several, many, SEVERAL, &count) == wanted);
            memcpy(kept, many, sizeof kept);
            at = 0;
        }
        if (wanted != NELI_ITEM) break;
        WANT(at < count && memcmp(&kept[at], &one, sizeof one) == 0);
        at++;
        WANT(is_attribute(&one, bytes, model.place));
        WANT(neli_find_attribute(bytes, length, &start, one.number, &found) == NELI_ITEM && found.number == one.number);
        if (first == length) first = found.payload;
        try_values(bytes + one.payload, one.payload_length, one.length % 9u);
        WANT(neli_attributes_in(&one, &inner) == NELI_OK);
        WANT(inner.place == one.payload && inner.end == one.payload + one.payload_length);
        if (depth > 0) try_attributes(bytes, length, inner, depth - 1);
        model.place += size;
        WANT(walk.place == model.place && walk.end == model.end);
    }
    WANT(count == 0 && walk.place == model.place && several.place == model.place);
}

/* The fields of an error, an acknowledgement or the end of a dump. */
static void try_answer(const uint8_t *bytes, size_t length, const struct neli_message *message) {
    struct neli_answer answer;
    const uint8_t *payload = bytes + message->payload;
    size_t left = message->payload_length, place = 4;
    bool is_end = message->type == 3 && message->flags & 2 && left > 0;
    int32_t wanted = NELI_OK;
    if (message->type == 2 && left < 20) wanted = NELI_SHORT;
    else if (message->type == 2) {
        bool is_short = u32_at(payload) == 0 || message->flags & 0x100;
        size_t echoed = u32_at(payload + 4);
        place = !is_short ? 4 + padded(echoed) : message->flags & 0x100 && message->flags & 0x200 ? 20 : left;
        if (place > left) place = left;
        if (!is_short && (echoed < 16 || echoed > left - 4)) wanted = NELI_LENGTH;
    } else if (is_end) wanted = left < 4 ? NELI_SHORT : NELI_OK;
    else wanted = NELI_KIND;
    WANT(neli_get_answer(bytes, length, message, &answer) == wanted);
    if (wanted != NELI_OK) return;
    WANT((uint32_t)answer.code == u32_at(payload));
    if (message->type == 2) WANT(answer.echo_length == u32_at(payload + 4));
    if (message->type == 2) WANT(answer.echo_number == u32_at(payload + 12));
    WANT(answer.attributes.place == message->payload + place && answer.attributes.end == message->payload + left);
    try_attributes(bytes, length, answer.attributes, 1);
}

static bool is_message(const struct neli_message *it, const uint8_t *at, size_t place) {
    return it->length == u32_at(at) && it->type == u16_at(at + 4) && it->flags == u16_at(at + 6) &&
           it->number == u32_at(at + 8) && it->port == u32_at(at + 12) && it->payload == place + 16 &&
           it->payload_length == it->length - 16u;
}

static void try_messages(const uint8_t *bytes, size_t length, size_t header) {
    struct neli_walk walk = {0, length}, several = walk, inner;
    struct neli_message one = {0}, *many = (void *)(out + ROOM - SEVERAL * sizeof one);
    struct neli_message kept[SEVERAL];
    size_t size = 0, count = 0, at = 0;
    for (size_t place = 0;; place += size) {
        int32_t wanted = frame(length - place, 16, stated_at(bytes + place, length - place, 16), &size);
        WANT(neli_next_message(bytes, length, &walk, &one) == wanted);
        if (at == count) {
            WANT(neli_next_messages(bytes, length, &several, many, SEVERAL, &count) == wanted);
            memcpy(kept, many, sizeof kept);
            at = 0;
        }
        if (wanted != NELI_ITEM) break;
        WANT(at < count && memcmp(&kept[at], &one, sizeof one) == 0);
        at++;
        WANT(is_message(&one, bytes + place, place) && walk.place == place + size);
        int32_t code = neli_attributes_of(&one, header, &inner);
        WANT(code == (one.payload_length < header ? NELI_SHORT : NELI_OK));
        if (code == NELI_OK) {
            size_t begin = one.payload + padded(header), end = one.payload + one.payload_length;
            WANT(inner.end == end && inner.place == (begin < end ? begin : end));
            try_attributes(bytes, length, inner, 2);
        }
        try_answer(bytes, length, &one);
    }
    WANT(count == 0);
}

/* Any places as a walk. */
static void try_places(const uint8_t *bytes, size_t length, struct script script) {
    struct neli_walk walk = {next_byte(&script), next_byte(&script)}, before = walk;
    struct neli_message message;
    struct neli_attribute attribute;
    bool is_within = walk.place <= walk.end && walk.end <= length;
    WANT((neli_next_message(bytes, length, &walk, &message) == NELI_PLACE) == !is_within);
    WANT(is_within || (walk.place == before.place && walk.end == before.end));
    walk = before;
    WANT((neli_next_attribute(bytes, length, &walk, &attribute) == NELI_PLACE) == !is_within);
    WANT((neli_find_attribute(bytes, length, &before, 1, &attribute) == NELI_PLACE) == !is_within);
}

/* A message, or a body without one, is written by a script, and beside it by the model. */
static void try_writing(struct script script) {
    static uint8_t model[ROOM];
    bool is_body = next_byte(&script) % 2 == 1, has_nest = false;
    size_t room = next_byte(&script) * 4u, nest = 0, end = is_body ? 0 : 16, nest_at = 0;
    uint8_t *to = out + ROOM - room;
    struct neli_writer writer = {0};
    memset(to, 0xaa, room);
    if (!is_body) {
        WANT(neli_begin_message(to, room, &writer, 18, 5, 7, 9) == (room < 16 ? NELI_ROOM : NELI_OK));
        if (room < 16) return;
        memcpy(model, "\0\0\0\0\x12\0\5\0\7\0\0\0\x9\0\0\0", 16);
    }
    while (script.left > 0) {
        uint8_t what = next_byte(&script), length = next_byte(&script) % 64, type = next_byte(&script);
        bool is_attribute = what % 3 == 1, is_nest = what % 3 == 2;
        size_t size = is_nest ? 4 : padded(length + (is_attribute ? 4u : 0u));
        int32_t code = is_nest ? neli_begin_nest(to, room, &writer, type, &nest)
            : is_attribute ? neli_put_attribute(to, room, &writer, type, in, length)
                           : neli_put_bytes(to, room, &writer, in, length);
        WANT(code == (size > room - end ? NELI_ROOM : NELI_OK));
        if (code != NELI_OK) break;
        memset(model + end, 0, size);
        if (is_attribute || is_nest) {
            model[end] = is_nest ? 0 : length + 4;
            model[end + 2] = type;
            model[end + 3] = is_nest ? 0x80 : 0;
        }
        if (is_nest) has_nest = true, nest_at = end, memcpy(model + end, to + end, 2);
        else memcpy(model + end + (is_attribute ? 4 : 0), in, length);
        end += size;
        WANT(writer.start == (is_body ? SIZE_MAX : 0) && writer.end == end);
    }
    if (has_nest) {
        WANT(nest == nest_at && neli_end_nest(to, room, &writer, nest) == NELI_OK);
        model[nest_at] = (uint8_t)(end - nest_at);
        model[nest_at + 1] = (uint8_t)((end - nest_at) >> 8);
    }
    WANT(neli_end_message(to, room, &writer) == (is_body ? NELI_PLACE : NELI_OK));
    if (!is_body) memcpy(model, &(uint32_t){(uint32_t)end}, 4);
    WANT(memcmp(model, to, end) == 0);
    for (size_t i = end; i < room; i++) WANT(to[i] == 0xaa);
}

int LLVMFuzzerTestOneInput(const uint8_t *data, size_t size);

int LLVMFuzzerTestOneInput(const uint8_t *data, size_t size) {
    if (in == NULL) in = guarded(), out = guarded();
    if (size < 3 || size > ROOM) return 0;
    struct script script = {data, size};
    uint8_t choice = next_byte(&script), header = next_byte(&script) % 40;
    if (choice % 4 == 0) {
        try_writing(script);
        return 0;
    }
    const uint8_t *bytes = placed(in, script.at, script.left, choice % 2 == 1);
    try_messages(bytes, script.left, header);
    try_attributes(bytes, script.left, (struct neli_walk){0, script.left}, 3);
    try_places(bytes, script.left, script);
    return 0;
}
