/* Checks include/neli.h against the library: each call once, and its answer; then what each refuses. Compile it with
 * all warnings, and with the address sanitizer. */
#include "neli.h"

#include <stdio.h>
#include <string.h>

static int failures;

#define CHECK(condition)                                                      \
    do {                                                                      \
        if (!(condition)) {                                                   \
            fprintf(stderr, "header.c:%d: %s\n", __LINE__, #condition);       \
            failures++;                                                       \
        }                                                                     \
    } while (0)

/* An answer of the kernel to a request for a link that is not there (ENODEV, 19), with the request's header, and as a
 * text "no". Type 2, flags CAPPED and ACK_TLVS, number 7, port 9. */
static const uint8_t error_bytes[] = {
    44, 0, 0, 0, 2, 0, 0, 3, 7, 0, 0, 0, 9, 0, 0, 0, /* the header */
    0xed, 0xff, 0xff, 0xff,                          /* -19 */
    32, 0, 0, 0, 18, 0, 5, 0, 7, 0, 0, 0, 9, 0, 0, 0, /* the request's header */
    7, 0, 1, 0, 'n', 'o', 0, 0,                      /* the text */
};

static void check_texts(void) {
    char text[NELI_TEXT_SIZE];
    CHECK(neli_error_text(NELI_MEMORY, text, sizeof text) == NELI_OK);
    CHECK(strcmp(text, "memory ran out") == 0);
    CHECK(neli_error_text(4711, text, sizeof text) == NELI_OK);
    CHECK(strcmp(text, "not a code of this library") == 0);
    CHECK(neli_error_text(NELI_MEMORY, text, 14) == NELI_ROOM);
    CHECK(neli_error_text(NELI_MEMORY, text, 15) == NELI_OK);
    for (int32_t code = NELI_TEXT; code <= NELI_KERNEL_ERROR; code++)
        CHECK(neli_error_text(code, text, sizeof text) == NELI_OK && strcmp(text, "not a code of this library") != 0);
}

/* asm-generic/errno.h */
static void check_errors(void) {
    char name[NELI_TEXT_SIZE];
    CHECK(neli_errno_name(-22, name, sizeof name) == NELI_ITEM && strcmp(name, "EINVAL") == 0);
    CHECK(neli_errno_name(105, name, sizeof name) == NELI_ITEM && strcmp(name, "ENOBUFS") == 0);
    CHECK(neli_errno_name(-131, name, 16) == NELI_ITEM && strcmp(name, "ENOTRECOVERABLE") == 0);
    CHECK(neli_errno_name(-131, name, 15) == NELI_ROOM && strcmp(name, "ENOTRECOVERABLE") == 0);
    CHECK(neli_errno_name(0, name, sizeof name) == NELI_END && neli_errno_name(4711, name, sizeof name) == NELI_END);
    CHECK(neli_errno_name(INT32_MIN, name, 0) == NELI_END && neli_errno_name(1, name, 0) == NELI_ROOM);
    CHECK(strcmp(name, "ENOTRECOVERABLE") == 0 && neli_errno_name(22, NULL, sizeof name) == NELI_NULL);
}

/* A link with a name, and in a nest its kind: written, and then read again. */
static void check_writing_and_reading(void) {
    uint8_t out[128];
    const uint8_t body[16] = {0, 0, 1, 0, 3};
    const uint32_t mtu = 1500;
    struct neli_writer writer = {0, 0};
    size_t nest = 0;
    CHECK(neli_begin_message(out, sizeof out, &writer, 16, 0x605, 7, 9) == NELI_OK);
    CHECK(writer.start == 0 && writer.end == 16);
    CHECK(neli_put_bytes(out, sizeof out, &writer, body, sizeof body) == NELI_OK && writer.end == 32);
    CHECK(neli_put_attribute(out, sizeof out, &writer, 3, "veth0", 6) == NELI_OK && writer.end == 44);
    CHECK(neli_put_attribute(out, sizeof out, &writer, 4, &mtu, sizeof mtu) == NELI_OK && writer.end == 52);
    CHECK(neli_begin_nest(out, sizeof out, &writer, 18, &nest) == NELI_OK && nest == 52 && writer.end == 56);
    CHECK(neli_put_attribute(out, sizeof out, &writer, 1, "veth", 5) == NELI_OK && writer.end == 68);
    CHECK(neli_end_nest(out, sizeof out, &writer, nest) == NELI_OK);
    CHECK(neli_end_message(out, sizeof out, &writer) == NELI_OK);
    /* linux/netlink.h, by hand */
    const uint8_t want[68] = {68, 0, 0, 0, 16, 0, 5, 6, 7, 0, 0, 0, 9, 0, 0, 0,
                              0, 0, 1, 0, 3, 0, 0, 0, 0, 0, 0, 0, 0, 0, 0, 0,
                              10, 0, 3, 0, 'v', 'e', 't', 'h', '0', 0, 0, 0,
                              8, 0, 4, 0, 0xdc, 5, 0, 0,
                              16, 0, 18, 0x80, 9, 0, 1, 0, 'v', 'e', 't', 'h', 0, 0, 0, 0};
    CHECK(memcmp(out, want, sizeof want) == 0);

    struct neli_walk messages = {0, writer.end}, attributes, inner;
    struct neli_message message;
    struct neli_attribute attribute;
    uint32_t number = 0;
    size_t length = 0;
    CHECK(neli_next_message(out, sizeof out, &messages, &message) == NELI_ITEM);
    CHECK(message.length == 68 && message.type == 16 && message.flags == 0x605);
    CHECK(message.number == 7 && message.port == 9 && message.payload == 16 && message.payload_length == 52);
    CHECK(neli_next_message(out, sizeof out, &messages, &message) == NELI_END);
    CHECK(neli_attributes_of(&message, 16, &attributes) == NELI_OK && attributes.place == 32 && attributes.end == 68);
    CHECK(neli_attributes_of(&message, 53, &attributes) == NELI_SHORT);
    CHECK(neli_find_attribute(out, sizeof out, &attributes, 18, &attribute) == NELI_ITEM);
    CHECK(attribute.length == 16 && attribute.type == 0x8012 && attribute.number == 18);
    CHECK(attribute.flags == NELI_NESTED && attribute.payload == 56 && attribute.payload_length == 12);
    CHECK(neli_attributes_in(&attribute, &inner) == NELI_OK && inner.place == 56 && inner.end == 68);
    CHECK(neli_next_attribute(out, sizeof out, &inner, &attribute) == NELI_ITEM && attribute.payload == 60);
    CHECK(neli_next_attribute(out, sizeof out, &inner, &attribute) == NELI_END);
    CHECK(neli_find_attribute(out, sizeof out, &attributes, 5, &attribute) == NELI_END);
    CHECK(neli_next_attribute(out, sizeof out, &attributes, &attribute) == NELI_ITEM && attribute.number == 3);
    CHECK(neli_text_length(out + attribute.payload, attribute.payload_length, &length) == NELI_OK && length == 5);
    CHECK(strcmp((const char *)out + attribute.payload, "veth0") == 0);
    CHECK(neli_next_attribute(out, sizeof out, &attributes, &attribute) == NELI_ITEM && attribute.number == 4);
    CHECK(neli_get_u32(out + attribute.payload, attribute.payload_length, 0, &number) == NELI_OK && number == 1500);
}

/* Bodies without a message: with no header, with one of generic netlink, behind other bytes, and behind a list; and
 * nests that lie nowhere. By linux/netlink.h, by hand. */
static void check_bodies(void) {
    const uint8_t header[4] = {3, 2, 0, 0};
    const uint8_t list[16] = {16, 0, 8, 0x80, 12, 0, 1, 0x80, 8, 0, 2, 0, 7, 0, 0, 0};
    for (size_t front = 0; front < 20; front += 4) {
        uint8_t out[64] = {0};
        struct neli_writer writer = {0, 0};
        size_t outer, inner;
        for (size_t i = 0; i < front; i += 4) CHECK(neli_put_bytes(out, 64, &writer, header, 4) == NELI_OK);
        CHECK(neli_begin_nest(out, 64, &writer, 8, &outer) == NELI_OK && outer == front);
        CHECK(writer.start == SIZE_MAX && writer.end == front + 4);
        CHECK(neli_begin_nest(out, 64, &writer, 1, &inner) == NELI_OK && inner == front + 4);
        CHECK(neli_put_u32(out, 64, &writer, 2, 7) == NELI_OK);
        CHECK(neli_end_nest(out, 64, &writer, inner) == NELI_OK && neli_end_nest(out, 64, &writer, outer) == NELI_OK);
        CHECK(writer.end == front + 16 && memcmp(out + front, list, 16) == 0);
        CHECK(neli_end_nest(out, 64, &writer, front + 13) == NELI_PLACE);
        CHECK(neli_end_message(out, 64, &writer) == NELI_PLACE);
        for (size_t i = 0; i < front; i += 4) CHECK(memcmp(out + i, header, 4) == 0);
    }
    uint8_t out[64] = {0};
    struct neli_writer behind = {8, 8}, message = {0, 0};
    size_t nest;
    CHECK(neli_put_attribute(out, 9, &behind, 1, "ab", 2) == NELI_ROOM && behind.start == 8 && behind.end == 8);
    CHECK(neli_begin_nest(out, 64, &behind, 8, &nest) == NELI_OK && nest == 8 && behind.start == SIZE_MAX);
    CHECK(neli_end_nest(out, 64, &behind, nest) == NELI_OK && out[8] == 4);
    /* A message that is begun behind a body has its own header. */
    CHECK(neli_put_bytes(out, 64, &message, header, 4) == NELI_OK);
    CHECK(neli_begin_message(out, 64, &message, 16, 0, 0, 0) == NELI_OK && message.start == 4);
    CHECK(neli_begin_nest(out, 64, &message, 8, &nest) == NELI_OK && message.start == 4);
    CHECK(neli_end_nest(out, 64, &message, 16) == NELI_PLACE && neli_end_nest(out, 64, &message, 20) == NELI_OK);
}

/* Numbers and a text as attributes: linux/netlink.h, by hand. */
static void check_typed_puts(void) {
    uint8_t out[96];
    struct neli_writer writer = {0, 0};
    const uint8_t want[84] = {5, 0, 1, 0, 0xa1, 0, 0, 0, 6, 0, 2, 0, 0xb2, 0xa1, 0, 0,
                              8, 0, 3, 0, 0xd4, 0xc3, 0xb2, 0xa1,
                              12, 0, 4, 0, 8, 7, 6, 5, 4, 3, 2, 1,
                              6, 0, 5, 0, 0xa1, 0xb2, 0, 0, 8, 0, 6, 0, 0xa1, 0xb2, 0xc3, 0xd4,
                              12, 0, 7, 0, 1, 2, 3, 4, 5, 6, 7, 8,
                              9, 0, 8, 0x40, 'v', 'e', 't', 'h', 0, 0, 0, 0, 5, 0, 9, 0, 0, 0, 0, 0};
    CHECK(neli_put_u8(out, sizeof out, &writer, 1, 0xa1) == NELI_OK && writer.end == 8);
    CHECK(neli_put_u16(out, sizeof out, &writer, 2, 0xa1b2) == NELI_OK && writer.end == 16);
    CHECK(neli_put_u32(out, sizeof out, &writer, 3, 0xa1b2c3d4) == NELI_OK && writer.end == 24);
    CHECK(neli_put_u64(out, sizeof out, &writer, 4, 0x0102030405060708) == NELI_OK && writer.end == 36);
    CHECK(neli_put_be16(out, sizeof out, &writer, 5, 0xa1b2) == NELI_OK && writer.end == 44);
    CHECK(neli_put_be32(out, sizeof out, &writer, 6, 0xa1b2c3d4) == NELI_OK && writer.end == 52);
    CHECK(neli_put_be64(out, sizeof out, &writer, 7, 0x0102030405060708) == NELI_OK && writer.end == 64);
    CHECK(neli_put_text(out, sizeof out, &writer, 8 | NELI_NETWORK_ORDER, "veth") == NELI_OK && writer.end == 76);
    CHECK(neli_put_text(out, sizeof out, &writer, 9, "") == NELI_OK && writer.end == sizeof want);
    CHECK(memcmp(out, want, sizeof want) == 0);
    CHECK(neli_put_text(out, sizeof out, &writer, 9, "eight..8") == NELI_ROOM && writer.end == sizeof want);
    CHECK(neli_put_text(out, sizeof out, &writer, 9, NULL) == NELI_NULL);
    CHECK(neli_put_u64(NULL, sizeof out, &writer, 9, 1) == NELI_NULL && neli_put_u8(out, 96, NULL, 9, 1) == NELI_NULL);
}

/* Three messages and a cut one, of which two are given at once, then one; and attributes. What is not given stays. */
static void check_several(void) {
    uint8_t out[64] = {0};
    struct neli_writer writer = {0, 0};
    struct neli_message messages[4], message;
    struct neli_attribute attributes[2], attribute;
    size_t count = 7;
    for (uint16_t i = 0; i < 3; i++) CHECK(neli_begin_message(out, 56, &writer, 16 + i, 0, i, 0) == NELI_OK);
    struct neli_walk walk = {0, 56}, single = {0, 56};
    memset(messages, 0x5a, sizeof messages);
    for (size_t room = 2, given = 0; given < 3; room = 4, given += count) {
        CHECK(neli_next_messages(out, 56, &walk, messages + given, room - given, &count) == NELI_ITEM);
        CHECK(count == (given == 0 ? 2 : 1));
    }
    for (size_t i = 0; i < 3; i++) {
        CHECK(neli_next_message(out, 56, &single, &message) == NELI_ITEM);
        CHECK(memcmp(&messages[i], &message, sizeof message) == 0 && message.type == 16 + i);
    }
    CHECK(walk.place == 48 && single.place == 48 && messages[3].length == 0x5a5a5a5a);
    CHECK(neli_next_messages(out, 56, &walk, messages, 4, &count) == NELI_SHORT && count == 0 && walk.place == 48);
    walk.end = 48;
    CHECK(neli_next_messages(out, 56, &walk, messages, 4, &count) == NELI_END && count == 0);
    CHECK(neli_next_messages(out, 56, &walk, NULL, 0, &count) == NELI_ROOM && count == 0);
    walk.end = 57;
    CHECK(neli_next_messages(out, 56, &walk, messages, 4, &count) == NELI_PLACE && messages[0].type == 16);
    CHECK(neli_next_messages(out, 56, &walk, NULL, 1, &count) == NELI_NULL);
    CHECK(neli_next_messages(out, 56, &walk, messages, SIZE_MAX / 32, &count) == NELI_NULL);
    CHECK(neli_next_messages(out, 56, &walk, messages, 4, NULL) == NELI_NULL);

    writer.start = writer.end = 0;
    for (uint16_t i = 1; i < 4; i++) CHECK(neli_put_attribute(out, 64, &writer, i, "abcdef", i) == NELI_OK);
    struct neli_walk list = {0, 24}, each = {0, 24};
    size_t found = 0;
    while (neli_next_attributes(out, 64, &list, attributes, 2, &count) == NELI_ITEM)
        for (size_t i = 0; i < count; i++, found++) {
            CHECK(neli_next_attribute(out, 64, &each, &attribute) == NELI_ITEM);
            CHECK(memcmp(&attributes[i], &attribute, sizeof attribute) == 0);
            CHECK(attribute.number == found + 1 && attribute.payload_length == found + 1);
        }
    CHECK(found == 3 && list.place == 24 && count == 0);
    list.place = 0, out[8] = 3;
    CHECK(neli_next_attributes(out, 64, &list, attributes, 2, &count) == NELI_ITEM && count == 1);
    CHECK(neli_next_attributes(out, 64, &list, attributes, 2, &count) == NELI_LENGTH && list.place == 8);
    CHECK(neli_next_attributes(out, 64, &list, NULL, 0, &count) == NELI_ROOM);
    CHECK(neli_next_attributes(NULL, 64, &list, attributes, 2, &count) == NELI_NULL);
}

static void check_numbers(void) {
    const uint8_t bytes[9] = {1, 2, 3, 4, 5, 6, 7, 8, 9};
    uint8_t a = 0;
    uint16_t b = 0;
    uint32_t c = 0;
    uint64_t d = 0;
    size_t length = 0;
    CHECK(neli_get_u8(bytes, 9, 8, &a) == NELI_OK && a == 9);
    CHECK(neli_get_u16(bytes, 9, 1, &b) == NELI_OK && b == 0x0302);
    CHECK(neli_get_u32(bytes, 9, 1, &c) == NELI_OK && c == 0x05040302);
    CHECK(neli_get_u64(bytes, 9, 1, &d) == NELI_OK && d == 0x0908070605040302);
    CHECK(neli_get_be16(bytes, 9, 1, &b) == NELI_OK && b == 0x0203);
    CHECK(neli_get_be32(bytes, 9, 1, &c) == NELI_OK && c == 0x02030405);
    CHECK(neli_get_be64(bytes, 9, 1, &d) == NELI_OK && d == 0x0203040506070809);
    CHECK(neli_get_u64(bytes, 9, 2, &d) == NELI_SHORT && neli_get_u8(bytes, 9, SIZE_MAX, &a) == NELI_SHORT);
    CHECK(neli_text_length(bytes, 9, &length) == NELI_TEXT);
}

static void check_answer(const uint8_t *bytes, size_t size) {
    struct neli_walk messages = {0, size};
    struct neli_message message;
    struct neli_answer answer;
    struct neli_attribute attribute;
    CHECK(neli_next_message(bytes, size, &messages, &message) == NELI_ITEM);
    CHECK(neli_get_answer(bytes, size, &message, &answer) == NELI_OK);
    CHECK(answer.code == -19 && answer.echo_length == 32 && answer.echo_type == 18 && answer.echo_flags == 5);
    CHECK(answer.echo_number == 7 && answer.echo_port == 9);
    CHECK(neli_find_attribute(bytes, size, &answer.attributes, NELI_ANSWER_TEXT, &attribute) == NELI_ITEM);
    CHECK(strcmp((const char *)bytes + attribute.payload, "no") == 0);
    CHECK(neli_find_attribute(bytes, size, &answer.attributes, NELI_ANSWER_OFFSET, &attribute) == NELI_END);
    /* A length of the echoed header is refused only where the whole request is echoed. */
    uint8_t other[sizeof error_bytes];
    memcpy(other, bytes, size);
    other[20] = 15;
    CHECK(neli_get_answer(other, size, &message, &answer) == NELI_OK && answer.echo_length == 15);
    message.flags = 0x200;
    CHECK(neli_get_answer(other, size, &message, &answer) == NELI_LENGTH && answer.echo_length == 15);
    memset(other + 16, 0, 4);
    other[20] = 200;
    CHECK(neli_get_answer(other, size, &message, &answer) == NELI_OK && answer.code == 0 && answer.echo_length == 200);
    answer.code = -19;
    message.type = 16;
    CHECK(neli_get_answer(bytes, size, &message, &answer) == NELI_KIND);
    message.payload = size;
    CHECK(neli_get_answer(bytes, size, &message, &answer) == NELI_PLACE && answer.code == -19);
    message.payload = SIZE_MAX;
    CHECK(neli_attributes_of(&message, 4, &messages) == NELI_PLACE && messages.place == size);
}

static void check_refusals(void) {
    uint8_t bytes[20] = {16};
    struct neli_walk walk = {0, 16};
    struct neli_message message;
    struct neli_attribute attribute = {0, 0, 0, 0, SIZE_MAX, 2};
    struct neli_writer writer = {0, 8};
    walk.place = 17;
    CHECK(neli_next_message(bytes, 16, &walk, &message) == NELI_PLACE);
    walk.place = 0, walk.end = 15;
    CHECK(neli_next_message(bytes, 16, &walk, &message) == NELI_SHORT && walk.place == 0);
    walk.end = 17;
    CHECK(neli_next_message(bytes, 16, &walk, &message) == NELI_PLACE);
    walk.end = 16, bytes[0] = 15;
    CHECK(neli_next_message(bytes, 16, &walk, &message) == NELI_LENGTH);
    bytes[0] = 20;
    CHECK(neli_next_message(bytes, 16, &walk, &message) == NELI_LENGTH);
    CHECK(neli_attributes_in(&attribute, &walk) == NELI_PLACE);
    CHECK(neli_begin_message(bytes, 20, &writer, 1, 1, 1, 1) == NELI_ROOM && writer.end == 8 && bytes[8] == 0);
    CHECK(neli_put_attribute(bytes, 20, &writer, 1, bytes, 65532) == NELI_LENGTH);
    CHECK(neli_put_attribute(bytes, 20, &writer, 1, "abcdefghi", 9) == NELI_ROOM);
    CHECK(neli_end_message(bytes, 20, &writer) == NELI_PLACE);
    CHECK(neli_end_nest(bytes, 20, &writer, 8) == NELI_PLACE);
    CHECK(neli_next_message(NULL, 16, &walk, &message) == NELI_NULL);
    CHECK(neli_next_message(bytes, SIZE_MAX, &walk, &message) == NELI_NULL);
    walk.place = 0, walk.end = 0;
    CHECK(neli_next_message(NULL, 0, &walk, &message) == NELI_END);
    CHECK(neli_next_message(bytes, 16, NULL, &message) == NELI_NULL);
    CHECK(neli_router_new(NULL, 1) == NELI_NULL);
}

static void check_router(void) {
    struct neli_router router = NELI_ROUTER_CLOSED;
    struct neli_sent sent;
    struct neli_item item;
    uint8_t out[64];
    const uint8_t body[17] = {0};
    const uint32_t group = 1;
    uint8_t stray[16] = {16, 0, 0, 0, 16, 0, 0, 0, 9, 0, 0, 0, 9, 0, 0, 0};
    size_t size = 0;
    CHECK(neli_router_read(&router, NELI_MULTICAST, &item) == NELI_STATE);
    CHECK(neli_router_set_number(&router, 7) == NELI_STATE);
    CHECK(neli_router_new(&router, 9) == NELI_OK && neli_router_new(&router, 9) == NELI_STATE);
    CHECK(neli_router_set_number(&router, 7) == NELI_OK);
    sent.handle = 4711;
    CHECK(neli_router_send(&router, 18, 4, body, 17, out, 35, &sent) == NELI_ROOM && sent.length == 36);
    CHECK(sent.handle == 4711);
    CHECK(neli_router_send(&router, 18, 4, body, 17, out, 36, &sent) == NELI_OK);
    CHECK(sent.length == 36 && sent.handle == 1);
    const uint8_t header[16] = {36, 0, 0, 0, 18, 0, 5, 0, 7, 0, 0, 0, 9, 0, 0, 0};
    CHECK(memcmp(out, header, sizeof header) == 0);
    CHECK(neli_router_item(&router, out, sizeof out, &size) == NELI_HANDLE);
    CHECK(neli_router_read(&router, 1, &item) == NELI_WAITS && neli_router_read(&router, 2, &item) == NELI_HANDLE);
    CHECK(neli_router_datagram(&router, error_bytes, sizeof error_bytes, NULL, 0) == NELI_OK);
    CHECK(neli_router_read(&router, 1, &item) == NELI_KERNEL_ERROR);
    CHECK(item.type == 2 && item.flags == 0x300 && item.number == 7 && item.port == 9 && item.error == -19);
    CHECK(neli_router_item(&router, out, 43, &size) == NELI_ROOM && size == 44);
    CHECK(neli_router_item(&router, out, 44, &size) == NELI_OK && size == 44);
    CHECK(memcmp(out, error_bytes, 44) == 0);
    CHECK(neli_router_read(&router, 1, &item) == NELI_END);
    CHECK(neli_router_close(&router, 1) == NELI_OK && neli_router_close(&router, 1) == NELI_HANDLE);
    CHECK(neli_router_datagram(&router, stray, sizeof stray, &group, 1) == NELI_OK);
    CHECK(neli_router_read(&router, NELI_MULTICAST, &item) == NELI_ITEM && item.type == 16 && item.number == 9);
    CHECK(neli_router_item(&router, out, sizeof out, &size) == NELI_OK && size == 16 && memcmp(out, stray, 16) == 0);
    CHECK(neli_router_read(&router, NELI_MULTICAST, &item) == NELI_WAITS && item.number == 9);
    CHECK(neli_router_item(&router, out, sizeof out, &size) == NELI_OK && size == 16);
    CHECK(neli_router_set_number(&router, 8) == NELI_OK);
    CHECK(neli_router_send(&router, 18, 0, NULL, 0, out, sizeof out, &sent) == NELI_OK && sent.handle == 1);
    CHECK(neli_router_set_number(&router, 8) == NELI_OK);
    CHECK(neli_router_send(&router, 18, 0, NULL, 0, out, sizeof out, &sent) == NELI_IN_USE && sent.handle == 1);
    CHECK(neli_router_set_number(&router, 9) == NELI_OK);
    CHECK(neli_router_datagram(&router, stray, sizeof stray, NULL, 0) == NELI_OK);
    CHECK(neli_router_read(&router, 1, &item) == NELI_STRAY);
    CHECK(neli_router_send(&router, 18, 0, NULL, 0, out, sizeof out, &sent) == NELI_OK && sent.handle == 2);
    CHECK(neli_router_fault(&router, 11) == NELI_OK && neli_router_read(&router, 2, &item) == NELI_WAITS);
    CHECK(neli_router_fault(&router, 105) == NELI_OK && neli_router_read(&router, 2, &item) == NELI_LINK);
    CHECK(neli_router_free(&router) == NELI_OK && neli_router_free(&router) == NELI_OK);
    CHECK(neli_router_read(&router, 1, &item) == NELI_STATE);
}

/* Ends a dump of port 9: NLMSG_DONE with these flags and MULTI, this number and this code. */
static int32_t end_dump(struct neli_router *router, uint8_t flags, uint8_t number, int32_t code) {
    uint8_t end[20] = {20, 0, 0, 0, 3, 0, (uint8_t)(2 | flags), 0, number, 0, 0, 0, 9, 0, 0, 0};
    memcpy(end + 16, &code, sizeof code);
    return neli_router_datagram(router, end, sizeof end, NULL, 0);
}

/* How answers stand, and what is left of one that was given up. */
static void check_verdicts(void) {
    struct neli_router router = NELI_ROUTER_CLOSED;
    struct neli_verdict verdict = {7, 7};
    struct neli_sent dump, other;
    struct neli_item item;
    uint8_t out[16];
    CHECK(neli_router_verdict(&router, 1, &verdict) == NELI_STATE && neli_router_give_up(&router, 1) == NELI_STATE);
    CHECK(neli_router_new(&router, 9) == NELI_OK && neli_router_verdict(&router, 1, NULL) == NELI_NULL);
    CHECK(neli_router_verdict(&router, 1, &verdict) == NELI_HANDLE && verdict.error == 7 && verdict.filtered == 7);
    CHECK(neli_router_verdict(&router, NELI_MULTICAST, &verdict) == NELI_WAITS);
    CHECK(neli_router_send(&router, 18, 0x300, NULL, 0, out, sizeof out, &dump) == NELI_OK);
    CHECK(neli_router_verdict(&router, dump.handle, &verdict) == NELI_WAITS);
    CHECK(verdict.error == 0 && verdict.filtered == 0);
    /* DUMP_FILTERED is 0x20, DUMP_INTR 0x10 (linux/netlink.h), and ENODEV 19. */
    CHECK(end_dump(&router, 0x20, 0, -19) == NELI_OK);
    CHECK(neli_router_verdict(&router, dump.handle, &verdict) == NELI_WAITS);
    CHECK(neli_router_read(&router, dump.handle, &item) == NELI_ITEM);
    CHECK(neli_router_verdict(&router, dump.handle, &verdict) == NELI_KERNEL_ERROR);
    CHECK(verdict.error == -19 && verdict.filtered == 1);
    CHECK(neli_router_send(&router, 18, 0x300, NULL, 0, out, sizeof out, &dump) == NELI_OK);
    CHECK(end_dump(&router, 0x10, 1, -19) == NELI_OK && neli_router_read(&router, dump.handle, &item) == NELI_ITEM);
    CHECK(neli_router_verdict(&router, dump.handle, &verdict) == NELI_INTERRUPTED && verdict.error == 0);
    CHECK(neli_router_send(&router, 18, 0x300, NULL, 0, out, sizeof out, &dump) == NELI_OK);
    CHECK(neli_router_send(&router, 18, 0x300, NULL, 0, out, sizeof out, &other) == NELI_OK);
    CHECK(neli_router_give_up(NULL, 1) == NELI_NULL && neli_router_give_up(&router, dump.handle) == NELI_OK);
    CHECK(neli_router_give_up(&router, dump.handle) == NELI_HANDLE);
    CHECK(neli_router_verdict(&router, dump.handle, &verdict) == NELI_HANDLE);
    CHECK(neli_router_set_number(&router, 2) == NELI_OK);
    CHECK(neli_router_send(&router, 18, 0x300, NULL, 0, out, sizeof out, &dump) == NELI_IN_USE);
    CHECK(end_dump(&router, 0, 2, 0) == NELI_OK);
    CHECK(neli_router_read(&router, other.handle, &item) == NELI_WAITS);
    CHECK(neli_router_send(&router, 18, 0x300, NULL, 0, out, sizeof out, &dump) == NELI_OK);
    CHECK(end_dump(&router, 0, 3, 0) == NELI_OK && neli_router_read(&router, other.handle, &item) == NELI_ITEM);
    CHECK(neli_router_verdict(&router, other.handle, &verdict) == NELI_OK);
    CHECK(neli_router_free(&router) == NELI_OK);
}

/* Items are lent where the router keeps them, and go by when they are passed. */
static void check_lent(void) {
    struct neli_router router = NELI_ROUTER_CLOSED;
    struct neli_sent first, second;
    struct neli_item item;
    struct neli_lent lent, again;
    struct neli_answer answer;
    struct neli_verdict verdict;
    uint8_t out[64];
    size_t size;
    /* Of handle 1 (number 0) two messages, between them one of handle 2 (number 1). */
    const uint8_t datagram[] = {
        20, 0, 0, 0, 16, 0, 2, 0, 0, 0, 0, 0, 9, 0, 0, 0, 1, 2, 3, 4,
        24, 0, 0, 0, 17, 0, 2, 0, 1, 0, 0, 0, 9, 0, 0, 0, 5, 6, 7, 8, 9, 10, 11, 12,
        16, 0, 0, 0, 18, 0, 2, 0, 0, 0, 0, 0, 9, 0, 0, 0,
    };
    CHECK(neli_router_lend(&router, 1, &lent) == NELI_STATE && lent.length == 0 && lent.bytes != NULL);
    CHECK(neli_router_pass(&router, 1) == NELI_STATE && neli_router_pass(NULL, 1) == NELI_NULL);
    CHECK(neli_router_lend(NULL, 1, &lent) == NELI_NULL && neli_router_lend(&router, 1, NULL) == NELI_NULL);
    CHECK(neli_router_new(&router, 9) == NELI_OK && neli_router_lend(&router, 1, &lent) == NELI_HANDLE);
    CHECK(neli_router_pass(&router, 1) == NELI_HANDLE);
    CHECK(neli_router_send(&router, 18, 0x300, NULL, 0, out, sizeof out, &first) == NELI_OK);
    CHECK(neli_router_send(&router, 18, 4, NULL, 0, out, sizeof out, &second) == NELI_OK);
    CHECK(neli_router_lend(&router, first.handle, &lent) == NELI_WAITS && neli_router_pass(&router, 1) == NELI_OK);
    CHECK(neli_router_datagram(&router, datagram, sizeof datagram, NULL, 0) == NELI_OK);
    CHECK(neli_router_lend(&router, second.handle, &lent) == NELI_ITEM && lent.message.type == 17);
    CHECK(lent.length == 8 && memcmp(lent.bytes, datagram + 36, 8) == 0 && lent.message.number == 1);
    CHECK(neli_router_lend(&router, first.handle, &lent) == NELI_ITEM && lent.message.type == 16);
    CHECK(lent.message.length == 20 && lent.message.flags == 2 && lent.message.number == 0 && lent.message.port == 9);
    CHECK(lent.message.payload == 0 && lent.message.payload_length == 4 && lent.error == 0);
    CHECK(lent.length == 4 && memcmp(lent.bytes, datagram + 16, 4) == 0);
    CHECK(neli_router_lend(&router, first.handle, &again) == NELI_ITEM && again.bytes == lent.bytes);
    CHECK(neli_router_read(&router, first.handle, &item) == NELI_ITEM && item.type == 16 && item.number == 0);
    CHECK(neli_router_item(&router, out, sizeof out, &size) == NELI_OK && memcmp(out, datagram, 20) == 0);
    CHECK(neli_router_lend(&router, first.handle, &lent) == NELI_ITEM && lent.message.type == 18 && lent.length == 0);
    CHECK(lent.bytes != NULL && neli_router_pass(&router, first.handle) == NELI_OK);
    CHECK(neli_router_lend(&router, first.handle, &lent) == NELI_WAITS && lent.length == 0);
    CHECK(neli_router_item(&router, out, sizeof out, &size) == NELI_OK && size == 20);
    CHECK(neli_router_lend(&router, second.handle, &lent) == NELI_ITEM && memcmp(lent.bytes, datagram + 36, 8) == 0);
    CHECK(neli_router_pass(&router, second.handle) == NELI_OK);
    CHECK(end_dump(&router, 0, 0, 0) == NELI_OK && neli_router_lend(&router, first.handle, &lent) == NELI_ITEM);
    CHECK(lent.message.type == 3 && neli_get_answer(lent.bytes, lent.length, &lent.message, &answer) == NELI_OK);
    CHECK(neli_router_verdict(&router, first.handle, &verdict) == NELI_WAITS);
    CHECK(neli_router_pass(&router, first.handle) == NELI_OK);
    CHECK(neli_router_verdict(&router, first.handle, &verdict) == NELI_OK);
    CHECK(neli_router_lend(&router, first.handle, &lent) == NELI_END && neli_router_pass(&router, 1) == NELI_OK);
    CHECK(neli_router_set_number(&router, 7) == NELI_OK);
    CHECK(neli_router_send(&router, 18, 4, NULL, 0, out, sizeof out, &first) == NELI_OK);
    CHECK(neli_router_datagram(&router, error_bytes, sizeof error_bytes, NULL, 0) == NELI_OK);
    CHECK(neli_router_lend(&router, first.handle, &lent) == NELI_KERNEL_ERROR && lent.error == -19);
    CHECK(lent.length == 28 && memcmp(lent.bytes, error_bytes + 16, 28) == 0);
    CHECK(neli_get_answer(lent.bytes, lent.length, &lent.message, &answer) == NELI_OK && answer.code == -19);
    CHECK(neli_router_pass(&router, first.handle) == NELI_OK);
    CHECK(neli_router_lend(&router, first.handle, &lent) == NELI_END);
    CHECK(neli_router_fault(&router, 104) == NELI_OK && neli_router_lend(&router, second.handle, &lent) == NELI_LINK);
    CHECK(neli_router_free(&router) == NELI_OK && neli_router_lend(&router, 1, &lent) == NELI_STATE);
}

/* Several items are lent at once, up to what is no message, and are passed at once. */
static void check_lent_items(void) {
    struct neli_router router = NELI_ROUTER_CLOSED;
    struct neli_sent first, second;
    struct neli_lent items[4], lent;
    struct neli_verdict verdict;
    uint8_t out[64];
    size_t count = 4711;
    /* Of handle 1 (number 0) three messages, between them one of handle 2 (number 1). */
    const uint8_t datagram[] = {
        20, 0, 0, 0, 16, 0, 2, 0, 0, 0, 0, 0, 9, 0, 0, 0, 1, 2, 3, 4,
        24, 0, 0, 0, 17, 0, 2, 0, 1, 0, 0, 0, 9, 0, 0, 0, 5, 6, 7, 8, 9, 10, 11, 12,
        16, 0, 0, 0, 18, 0, 2, 0, 0, 0, 0, 0, 9, 0, 0, 0,
        20, 0, 0, 0, 19, 0, 2, 0, 0, 0, 0, 0, 9, 0, 0, 0, 13, 14, 15, 16,
    };
    /* A message before the error of number 7. */
    const uint8_t before[] = {16, 0, 0, 0, 16, 0, 2, 0, 7, 0, 0, 0, 9, 0, 0, 0};
    CHECK(neli_router_lend_items(&router, 1, items, 4, &count) == NELI_STATE && count == 0);
    CHECK(neli_router_pass_items(&router, 1, 2) == NELI_STATE && neli_router_pass_items(NULL, 1, 2) == NELI_NULL);
    CHECK(neli_router_lend_items(NULL, 1, items, 4, &count) == NELI_NULL);
    CHECK(neli_router_lend_items(&router, 1, items, 4, NULL) == NELI_NULL);
    CHECK(neli_router_lend_items(&router, 1, NULL, 4, &count) == NELI_NULL);
    CHECK(neli_router_lend_items(&router, 1, items, SIZE_MAX / 32, &count) == NELI_NULL);
    CHECK(neli_router_new(&router, 9) == NELI_OK && neli_router_pass_items(&router, 1, 2) == NELI_HANDLE);
    CHECK(neli_router_lend_items(&router, 1, items, 4, &count) == NELI_HANDLE && count == 0);
    CHECK(neli_router_send(&router, 18, 0x300, NULL, 0, out, sizeof out, &first) == NELI_OK);
    CHECK(neli_router_send(&router, 18, 4, NULL, 0, out, sizeof out, &second) == NELI_OK);
    CHECK(neli_router_lend_items(&router, first.handle, items, 4, &count) == NELI_WAITS && count == 0);
    CHECK(items[0].bytes != NULL && items[0].length == 0);
    CHECK(neli_router_datagram(&router, datagram, sizeof datagram, NULL, 0) == NELI_OK);
    CHECK(neli_router_lend_items(&router, first.handle, NULL, 0, &count) == NELI_ROOM && count == 0);
    CHECK(neli_router_lend_items(&router, first.handle, items, 2, &count) == NELI_ITEM && count == 2);
    CHECK(items[0].message.type == 16 && items[1].message.type == 18);
    CHECK(neli_router_lend_items(&router, first.handle, items, 4, &count) == NELI_ITEM && count == 3);
    CHECK(items[0].message.type == 16 && items[0].length == 4 && memcmp(items[0].bytes, datagram + 16, 4) == 0);
    CHECK(items[0].message.length == 20 && items[0].message.payload == 0 && items[0].message.payload_length == 4);
    CHECK(items[0].error == 0 && items[1].message.type == 18 && items[1].length == 0 && items[1].error == 0);
    CHECK(items[2].message.type == 19 && items[2].length == 4 && memcmp(items[2].bytes, datagram + 76, 4) == 0);
    CHECK(items[3].bytes != NULL && items[3].length == 0);
    CHECK(neli_router_lend(&router, first.handle, &lent) == NELI_ITEM && lent.bytes == items[0].bytes);
    CHECK(neli_router_pass_items(&router, first.handle, 0) == NELI_OK);
    CHECK(neli_router_pass_items(&router, first.handle, 2) == NELI_OK);
    CHECK(neli_router_lend_items(&router, first.handle, items, 4, &count) == NELI_ITEM && count == 1);
    CHECK(items[0].message.type == 19 && neli_router_pass_items(&router, first.handle, 1) == NELI_OK);
    CHECK(neli_router_lend_items(&router, first.handle, items, 4, &count) == NELI_WAITS && count == 0);
    CHECK(neli_router_pass_items(&router, first.handle, SIZE_MAX) == NELI_OK);
    CHECK(neli_router_lend_items(&router, second.handle, items, 4, &count) == NELI_ITEM && count == 1);
    CHECK(items[0].message.type == 17 && memcmp(items[0].bytes, datagram + 36, 8) == 0);
    CHECK(neli_router_datagram(&router, datagram, 20, NULL, 0) == NELI_OK && end_dump(&router, 0, 0, 0) == NELI_OK);
    CHECK(neli_router_lend_items(&router, first.handle, items, 4, &count) == NELI_ITEM && count == 2);
    CHECK(items[1].message.type == 3 && neli_router_verdict(&router, first.handle, &verdict) == NELI_WAITS);
    CHECK(neli_router_pass_items(&router, first.handle, SIZE_MAX) == NELI_OK);
    CHECK(neli_router_verdict(&router, first.handle, &verdict) == NELI_OK);
    CHECK(neli_router_lend_items(&router, first.handle, items, 4, &count) == NELI_END && count == 0);
    CHECK(neli_router_set_number(&router, 7) == NELI_OK);
    CHECK(neli_router_send(&router, 18, 4, NULL, 0, out, sizeof out, &first) == NELI_OK);
    CHECK(neli_router_datagram(&router, before, sizeof before, NULL, 0) == NELI_OK);
    CHECK(neli_router_datagram(&router, error_bytes, sizeof error_bytes, NULL, 0) == NELI_OK);
    CHECK(neli_router_lend_items(&router, first.handle, items, 4, &count) == NELI_ITEM && count == 1);
    CHECK(items[0].message.type == 16 && items[1].length == 0);
    CHECK(neli_router_pass_items(&router, first.handle, count) == NELI_OK);
    CHECK(neli_router_lend_items(&router, first.handle, items, 4, &count) == NELI_KERNEL_ERROR && count == 0);
    CHECK(items[0].error == -19 && items[0].length == 28 && memcmp(items[0].bytes, error_bytes + 16, 28) == 0);
    CHECK(items[1].length == 0 && neli_router_pass(&router, first.handle) == NELI_OK);
    CHECK(neli_router_lend_items(&router, first.handle, items, 4, &count) == NELI_END && count == 0);
    CHECK(neli_router_fault(&router, 104) == NELI_OK);
    CHECK(neli_router_lend_items(&router, second.handle, items, 4, &count) == NELI_ITEM && count == 1);
    CHECK(neli_router_pass_items(&router, second.handle, 1) == NELI_OK);
    CHECK(neli_router_lend_items(&router, second.handle, items, 4, &count) == NELI_LINK && count == 0);
    CHECK(neli_router_free(&router) == NELI_OK);
}

/* Handles that were closed are given again, the last one first, and then new ones; the others stay, and multicast's is
 * never given. */
static void check_handles(void) {
    struct neli_router router = NELI_ROUTER_CLOSED;
    struct neli_sent sent;
    struct neli_item item;
    uint8_t out[16];
    const size_t closed[] = {2, 4, 1}, again[] = {1, 4, 2, 5, 6};
    CHECK(neli_router_new(&router, 9) == NELI_OK);
    for (size_t i = 1; i < 5; i++)
        CHECK(neli_router_send(&router, 18, 0, NULL, 0, out, sizeof out, &sent) == NELI_OK && sent.handle == i);
    for (size_t i = 0; i < 3; i++) CHECK(neli_router_close(&router, closed[i]) == NELI_OK);
    CHECK(neli_router_close(&router, NELI_MULTICAST) == NELI_OK);
    CHECK(neli_router_send(&router, 18, 0, NULL, 0, out, 15, &sent) == NELI_ROOM);
    for (size_t i = 0; i < 5; i++) {
        CHECK(neli_router_send(&router, 18, 0, NULL, 0, out, sizeof out, &sent) == NELI_OK && sent.handle == again[i]);
        CHECK(neli_router_read(&router, 3, &item) == NELI_WAITS);
        CHECK(neli_router_read(&router, again[i], &item) == NELI_WAITS);
    }
    CHECK(neli_router_read(&router, NELI_MULTICAST, &item) == NELI_HANDLE);
    CHECK(neli_router_free(&router) == NELI_OK);
}

int main(void) {
    check_texts();
    check_errors();
    check_writing_and_reading();
    check_bodies();
    check_typed_puts();
    check_several();
    check_numbers();
    check_answer(error_bytes, sizeof error_bytes);
    check_refusals();
    check_router();
    check_verdicts();
    check_lent();
    check_lent_items();
    check_handles();
    printf("header.c: %s\n", failures == 0 ? "each call answers as include/neli.h says" : "failed");
    return failures != 0;
}
