/* Messages by name, on any bytes and by any tables: what is printed is JSON, and the same in a room of any size; each item
 * of a walk lies in its message, and is what a walk by numbers finds there. Bytes and texts lie beside pages that nothing
 * may touch. An input is a choice, a protocol, and the bytes of a datagram; or a text, a zero, and such bytes. */
#include "guard.h"

#define DEEP 64

static uint8_t *in, *out, *text_at;
static struct neli_tables built_in = NELI_TABLES_CLOSED;
static const uint16_t protocols[] = {0, 16, 12, 4, 6, 11, 15, 31};

/* ---- JSON (RFC 8259): where a value ends, or NULL */

static const char *value_end(const char *at, const char *end, int depth);

static const char *string_end(const char *at, const char *end) {
    if (at == end || *at != '"') return NULL;
    for (at++; at < end && *at != '"'; at++) {
        if ((unsigned char)*at < 0x20) return NULL;
        if (*at == '\\' && ++at == end) return NULL;
    }
    return at < end ? at + 1 : NULL;
}

static const char *number_end(const char *at, const char *end) {
    const char *first = at;
    if (at < end && *at == '-') at++;
    const char *digits = at;
    while (at < end && *at >= '0' && *at <= '9') at++;
    return at == digits || (*digits == '0' && at - digits > 1) || at == first ? NULL : at;
}

/* The members of an object, or the elements of an array. */
static const char *list_end(const char *at, const char *end, bool is_object, int depth) {
    char last = is_object ? '}' : ']';
    if (++at < end && *at == last) return at + 1;
    while (at != NULL && at < end) {
        if (is_object) {
            at = string_end(at, end);
            if (at == NULL || at == end || *at++ != ':') return NULL;
        }
        at = value_end(at, end, depth + 1);
        if (at == NULL || at == end) return NULL;
        if (*at == last) return at + 1;
        if (*at++ != ',') return NULL;
    }
    return NULL;
}

static const char *value_end(const char *at, const char *end, int depth) {
    size_t left = (size_t)(end - at);
    if (left == 0 || depth > DEEP) return NULL;
    if (*at == '{' || *at == '[') return list_end(at, end, *at == '{', depth);
    if (*at == '"') return string_end(at, end);
    if (left >= 4 && (memcmp(at, "true", 4) == 0 || memcmp(at, "null", 4) == 0)) return at + 4;
    if (left >= 5 && memcmp(at, "false", 5) == 0) return at + 5;
    return number_end(at, end);
}

static void want_json(const char *text, size_t size) {
    WANT(value_end(text, text + size, 0) == text + size);
}

/* ---- What a call prints */

/* What was printed last, as much of it as fits the room; and how long it is. */
struct printed {
    char *at;
    size_t size, room;
};

typedef int32_t print_call(struct neli_tables *tables, uint16_t protocol, const uint8_t *bytes, size_t length,
                           char *out, size_t room, size_t *size);

/* A call prints the same into a room of any size, and no further. */
static struct printed printed_by(print_call *call, struct neli_tables *tables, uint16_t protocol, const uint8_t *bytes,
                                 size_t length, size_t cut) {
    static char model[ROOM];
    size_t size = 0, again = 0;
    int32_t code = call(tables, protocol, bytes, length, (char *)out, ROOM, &size);
    WANT(code == (size <= ROOM ? NELI_OK : NELI_ROOM));
    size_t whole = size < ROOM ? size : ROOM, room = cut % (whole + 1);
    memcpy(model, out, whole);
    memset(out, 0xaa, ROOM);
    char *to = (char *)out + ROOM - room;
    WANT(call(tables, protocol, bytes, length, to, room, &again) == (room < size ? NELI_ROOM : NELI_OK));
    WANT(again == size && memcmp(to, model, room) == 0 && (room == ROOM || to[-1] == (char)0xaa));
    return (struct printed){model, size, whole};
}

static struct neli_message message;

static int32_t message_text(struct neli_tables *tables, uint16_t protocol, const uint8_t *bytes, size_t length,
                            char *to, size_t room, size_t *size) {
    return neli_message_text(tables, protocol, bytes, length, &message, to, room, size);
}

static int32_t message_json(struct neli_tables *tables, uint16_t protocol, const uint8_t *bytes, size_t length,
                            char *to, size_t room, size_t *size) {
    return neli_message_json(tables, protocol, bytes, length, &message, to, room, size);
}

static int32_t refusal_text(struct neli_tables *tables, uint16_t protocol, const uint8_t *bytes, size_t length,
                            char *to, size_t room, size_t *size) {
    return neli_refusal_text(tables, protocol, bytes, length, &message, -(int32_t)(message.number % 200), bytes,
                             length % 40, message.port % 128, to, room, size);
}

static int32_t diagnosis(struct neli_tables *tables, uint16_t protocol, const uint8_t *bytes, size_t length, char *to,
                         size_t room, size_t *size) {
    return neli_diagnosis(tables, protocol, bytes, length, &message, -(int32_t)(message.number % 200),
                          bytes + message.payload, message.payload_length, to, room, size);
}

/* ---- A message */

/* The items of a message, each in the message, and their texts one behind the other. In the message's own list each is
 * the attribute that a walk by numbers finds there. In a smaller room the first of them are the same. */
static void want_items(const struct neli_named *items, size_t count, const char *text, const uint8_t *bytes,
                       size_t length) {
    size_t begin = message.payload, end = begin + message.payload_length, at = 0;
    struct neli_walk walk = {0, 0};
    for (const struct neli_named *it = items; it < items + count; it++) {
        WANT(it->depth > 0 && it->kind <= NELI_KIND_REST && it->path_length > 0);
        WANT(begin <= it->payload && it->payload <= end && it->payload_length <= end - it->payload);
        WANT(it->path == at && it->value == at + it->path_length && it->value_length > 0);
        at = it->value + it->value_length;
        if (at <= ROOM) want_json(text + it->value, it->value_length);
        if (it == items) walk = (struct neli_walk){it->payload - (it->kind == NELI_KIND_REST ? 0 : 4), end};
        if (it->depth > 1) continue;
        struct neli_attribute found;
        bool is_one = neli_next_attribute(bytes, length, &walk, &found) == NELI_ITEM;
        WANT(is_one == (it->kind != NELI_KIND_REST));
        WANT(!is_one || (found.number == it->number && found.payload == it->payload));
        WANT(!is_one || found.payload_length == it->payload_length);
    }
}

static void try_items(struct neli_tables *tables, uint16_t protocol, const uint8_t *bytes, size_t length) {
    static struct neli_named items[ROOM], some[ROOM];
    static char model[ROOM];
    size_t count = 0, size = 0, few, short_size;
    char *text = (char *)out;
    int32_t code = neli_named_items(tables, protocol, bytes, length, &message, items, ROOM, &count, text, ROOM, &size);
    if (code == NELI_KIND || code == NELI_SHORT) return;
    WANT(code == (size <= ROOM ? NELI_OK : NELI_ROOM) && count < ROOM);
    want_items(items, count, text, bytes, length);
    size_t whole = size < ROOM ? size : ROOM, cut = message.number % (whole + 1), room = message.port % (count + 1);
    memcpy(model, text, whole);
    text += ROOM - cut;
    code = neli_named_items(tables, protocol, bytes, length, &message, some, room, &few, text, cut, &short_size);
    WANT(code == (cut == size && room == count ? NELI_OK : NELI_ROOM) && few == count && short_size == size);
    WANT(memcmp(text, model, cut) == 0);
    for (size_t i = 0; i < room; i++)
        WANT(some[i].payload == items[i].payload && some[i].path == items[i].path && some[i].kind == items[i].kind);
}

/* The name of a message, in a room of two sizes; and what names and numbers are found by its bytes. */
static void try_name(struct neli_tables *tables, uint16_t protocol, const uint8_t *bytes, size_t length) {
    char name[65] = {0}, family[65] = {0};
    uint64_t number = 4711;
    size_t size = 0, again = 0;
    int32_t code = neli_message_name(tables, protocol, bytes, length, &message, name, 64, &size);
    WANT((code == NELI_END && size == 0) || (code == NELI_ITEM && size > 0));
    size_t half = size < 128 ? size / 2 : 64;
    WANT(neli_message_name(tables, protocol, bytes, length, &message, name, half, &again) == code && again == size);
    memcpy(family, bytes, length < 64 ? length : 64);
    code = neli_number_of(tables, family, NULL, name, &number);
    WANT(code == NELI_ITEM || (code == NELI_END && number == 4711));
    code = neli_name_of(tables, family, family, message.number, name, 64, &size);
    WANT(code == NELI_ITEM || code == NELI_END);
}

/* What is written from a text is one message, or why it is none; without room for all of it nothing is. */
static void try_json(struct neli_tables *tables, uint16_t protocol, const void *json, size_t length) {
    size_t size = 0, again = 0;
    struct neli_message one;
    int32_t code = neli_write_json(tables, protocol, json, length, out, ROOM, &size);
    WANT(code == NELI_OK || code == NELI_ROOM || (code == NELI_VIOLATION && size > 0));
    if (code != NELI_OK) return;
    struct neli_walk walk = {0, size};
    WANT(neli_next_message(out, size, &walk, &one) == NELI_ITEM && walk.place == size);
    memset(out, 0xaa, ROOM);
    WANT(neli_write_json(tables, protocol, json, length, out, size - 1, &again) == NELI_ROOM && again == size);
    for (size_t i = 0; i < size; i++) WANT(out[i] == 0xaa);
}

static void try_message(struct neli_tables *tables, uint16_t protocol, const uint8_t *bytes, size_t length) {
    struct printed json = printed_by(message_json, tables, protocol, bytes, length, message.number);
    if (json.size <= ROOM) want_json(json.at, json.size);
    if (json.size <= ROOM) try_json(tables, protocol, json.at, json.size);
    try_json(tables, protocol, bytes + message.payload, message.payload_length);
    printed_by(message_text, tables, protocol, bytes, length, message.port);
    printed_by(refusal_text, tables, protocol, bytes, length, message.number);
    printed_by(diagnosis, tables, protocol, bytes, length, message.port);
    try_items(tables, protocol, bytes, length);
    size_t size = 0;
    int32_t code = neli_check(tables, protocol, bytes, length, &message, (char *)out, ROOM, &size);
    WANT(code == NELI_OK || (code == NELI_VIOLATION && size > 2));
    for (int parser = NELI_LIBERAL; parser <= NELI_STRICT; parser++) {
        code = neli_check_as(tables, (enum neli_validation)parser, protocol, bytes, length, &message, (char *)out, ROOM,
                             &size);
        WANT(code == NELI_OK || (code == NELI_VIOLATION && size > 2));
    }
    code = neli_path_at(tables, protocol, bytes, length, &message, message.port % 256, (char *)out, ROOM, &size);
    WANT(code == NELI_END || (code == NELI_ITEM && size > 0));
    try_name(tables, protocol, bytes, length);
    WANT(neli_tables_learn_from(tables, protocol, bytes, length, &message) == NELI_OK);
    struct neli_message past = message;
    past.payload_length = length;
    WANT(neli_check(tables, protocol, bytes, length, &past, (char *)out, ROOM, &size) == NELI_PLACE);
}

/* ---- A datagram */

/* A datagram in JSON is a line for each message and one for its fault, and each line is one value. */
static void try_lines(struct printed json, size_t count) {
    size_t lines = 0;
    for (const char *at = json.at, *end = json.at + json.size, *next; at < end; at = next, lines++) {
        next = memchr(at, '\n', (size_t)(end - at));
        WANT(next != NULL);
        want_json(at, (size_t)(next++ - at));
    }
    WANT(lines == count);
}

static void try_datagram(struct neli_tables *tables, uint16_t protocol, const uint8_t *bytes, size_t length,
                         size_t cut) {
    struct neli_walk walk = {0, length};
    size_t count = 0;
    int32_t code;
    while ((code = neli_next_message(bytes, length, &walk, &message)) == NELI_ITEM) {
        count++;
        if (count < 20) try_message(tables, protocol, bytes, length);
    }
    struct printed json = printed_by(neli_datagram_json, tables, protocol, bytes, length, cut);
    if (json.size <= ROOM) try_lines(json, count + (code != NELI_END));
    printed_by(neli_datagram_text, tables, protocol, bytes, length, cut);
}

/* Tables of the input's own: added, or refused with the number of a line. */
static void try_own(const uint8_t *bytes, size_t length, uint16_t protocol) {
    struct neli_tables tables = NELI_TABLES_CLOSED;
    const uint8_t *zero = memchr(bytes, 0, length);
    size_t size = zero != NULL ? (size_t)(zero - bytes) : length, rest = zero != NULL ? length - size - 1 : 0;
    size_t line = 0, count = 1, reason = 0;
    const uint8_t *text = placed(text_at, bytes, size, true);
    for (size_t i = 0; i < size; i++) count += text[i] == '\n';
    WANT(neli_tables_new(&tables) == NELI_OK);
    int32_t code = neli_tables_add(&tables, text, size, &line, (char *)out, ROOM, &reason);
    WANT(code == NELI_OK || (code == NELI_TABLE && 1 <= line && line <= count && reason > 0));
    WANT(neli_tables_learn(&tables, 33, text, size < 16 ? size : 16) == NELI_OK);
    try_datagram(&tables, protocol, placed(in, bytes + length - rest, rest, true), rest, rest);
    WANT(neli_tables_free(&tables) == NELI_OK);
}

int LLVMFuzzerTestOneInput(const uint8_t *data, size_t size);

int LLVMFuzzerTestOneInput(const uint8_t *data, size_t size) {
    if (in == NULL) {
        in = guarded(), out = guarded(), text_at = guarded();
        WANT(neli_tables_built_in(&built_in) == NELI_OK);
    }
    if (size < 2 || size > ROOM) return 0;
    struct script script = {data, size};
    uint8_t choice = next_byte(&script), protocol = next_byte(&script);
    uint16_t of = protocols[protocol % (sizeof protocols / sizeof *protocols)];
    if (choice % 4 == 0) try_own(script.at, script.left, of);
    else try_datagram(&built_in, of, placed(in, script.at, script.left, choice % 2 == 1), script.left, choice);
    return 0;
}
