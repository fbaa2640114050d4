/* Checks the kernel to test against of include/neli.h: each call once, and its answer; then what each refuses. Requests
 * and answers are recordings of Linux 6.18, as suites/library/src/simulator has them, unless a comment says otherwise.
 * Compile it with all warnings, and with the address sanitizer. */
#include "neli.h"

#include <stdio.h>
#include <string.h>

static int failures;

#define CHECK(condition)                                                \
    do {                                                                \
        if (!(condition)) {                                             \
            fprintf(stderr, "kernel.c:%d: %s\n", __LINE__, #condition); \
            failures++;                                                 \
        }                                                               \
    } while (0)

#define PORT 12587

/* The bytes of digits; gives how many. */
static size_t bytes_of(const char *digits, uint8_t *to) {
    size_t count = 0;
    unsigned byte;
    for (; sscanf(digits, "%2x", &byte) == 1; digits += 2) to[count++] = (uint8_t)byte;
    return count;
}

/* The one request of these digits. */
static size_t request_of(const char *digits, uint8_t *bytes, struct neli_request *request) {
    size_t length = bytes_of(digits, bytes);
    struct neli_walk walk = {0, length};
    CHECK(neli_next_request(bytes, length, &walk, PORT, request) == NELI_ITEM && walk.place == length);
    CHECK(neli_next_request(bytes, length, &walk, PORT, request) == NELI_END);
    return length;
}

static void want_bytes(const char *digits, const uint8_t *out, size_t length) {
    uint8_t wanted[256];
    CHECK(bytes_of(digits, wanted) == length && memcmp(out, wanted, length) == 0);
}

/* What requests ask for, by linux/netlink.h: a dump of links, the same without REQUEST, and one of generic netlink. */
static void check_requests(void) {
    uint8_t bytes[64];
    struct neli_request request;
    memset(&request, 0x5a, sizeof request);
    CHECK(request_of("14000000120005030700000000000000" "00000000", bytes, &request) == 20);
    CHECK(request.message.type == 18 && request.message.flags == 0x305 && request.message.number == 7);
    CHECK(request.message.payload == 16 && request.message.payload_length == 4 && request.port == PORT);
    CHECK(request.is_handled == 1 && request.wants_acknowledgement == 1 && request.wants_dump == 1);
    CHECK(request.wants_routing_dump == 1 && request.wants_echo == 0);
    request_of("10000000120008010700000000000000", bytes, &request);
    CHECK(request.is_handled == 0 && request.wants_acknowledgement == 0 && request.wants_dump == 0);
    CHECK(request.wants_routing_dump == 1 && request.wants_echo == 1);
    request_of("10000000100001030700000000000000", bytes, &request);
    CHECK(request.is_handled == 1 && request.wants_dump == 1 && request.wants_routing_dump == 0);
    struct neli_walk walk = {0, 15};
    CHECK(neli_next_request(bytes, 16, &walk, 9, &request) == NELI_SHORT && walk.place == 0 && request.port == PORT);
    walk.end = 17;
    CHECK(neli_next_request(bytes, 16, &walk, 9, &request) == NELI_PLACE);
    CHECK(neli_next_request(NULL, 16, &walk, 9, &request) == NELI_NULL);
    CHECK(neli_next_request(bytes, 16, &walk, 9, NULL) == NELI_NULL);
}

/* How Linux answers requests of routing, generic netlink, netfilter, the connector and others, by its sources. */
static void check_answerings(void) {
    static const struct {
        int32_t protocol;
        uint16_t type, flags;
        size_t length;
        uint32_t answering;
    } rows[] = {
        {0, 18, 0x301, 16, NELI_ANSWERING_DUMP}, {0, 18, 0x105, 16, NELI_ANSWERING_DUMP},
        {0, 18, 0x305, 0, NELI_ANSWERING_ACKNOWLEDGEMENT}, {0, 18, 0x301, 0, NELI_ANSWERING_SILENCE},
        {0, 16, 0x305, 16, NELI_ANSWERING_ACKNOWLEDGEMENT}, {0, 16, 0x301, 16, NELI_ANSWERING_SILENCE},
        {0, 18, 1, 16, NELI_ANSWERING_REPLY}, {16, 16, 0x305, 4, NELI_ANSWERING_DUMP},
        {16, 16, 0x105, 4, NELI_ANSWERING_ACKNOWLEDGEMENT}, {16, 16, 1, 4, NELI_ANSWERING_REPLY},
        {12, 0xa01, 0x105, 4, NELI_ANSWERING_DUMP}, {12, 0x607, 1, 4, NELI_ANSWERING_DUMP},
        {11, 20, 4, 20, NELI_ANSWERING_SILENCE}, {99, 20, 0x301, 0, NELI_ANSWERING_DUMP},
        {99, 20, 0x105, 0, NELI_ANSWERING_ACKNOWLEDGEMENT}, {-1, 20, 0x101, 0, NELI_ANSWERING_REPLY},
    };
    for (size_t i = 0; i < sizeof rows / sizeof *rows; i++)
        CHECK(neli_answering(rows[i].protocol, rows[i].type, rows[i].flags, rows[i].length) == rows[i].answering);
    for (uint32_t it = 0; it < 6; it++) {
        bool is_done = it == NELI_ANSWERING_DUMP || it == NELI_ANSWERING_REPLY;
        bool goes_on = it == NELI_ANSWERING_DUMP;
        CHECK(neli_ends_answer(it, 2, 0, 0) == 1 && neli_ends_answer(it, 3, 2, 0) == is_done);
        CHECK(neli_ends_answer(it, 16, 0, 0) == (it == NELI_ANSWERING_REPLY) && neli_ends_answer(it, 16, 2, 0) == 0);
        /* ENOBUFS of asm-generic/errno.h, EBUSY, and ENOBUFS of the end of a dump. */
        CHECK(neli_ends_answer(it, 2, 0, -105) == !goes_on && neli_ends_answer(it, 2, 0, -16) == 1);
        CHECK(neli_ends_answer(it, 3, 2, -105) == is_done);
    }
}

/* An acknowledgement (recording 0517), and one with a text (0799). */
static void check_acknowledgements(void) {
    uint8_t bytes[128], out[128], ext_ack[128];
    struct neli_request request;
    struct neli_writer writer = {0, 0};
    size_t length = 0;
    const char *text = "sch_htb: quantum of class 10001 is small. Consider r2q change.";
    request_of("20000000120004001d0400000000000000000000030000000000000000000000", bytes, &request);
    CHECK(neli_kernel_ack(&request, NULL, 0, out, 35, &length) == NELI_ROOM && length == 36);
    CHECK(neli_kernel_ack(&request, NULL, 0, out, 36, &length) == NELI_OK && length == 36);
    want_bytes("24000000020000011d0400002b3100000000000020000000120004001d04000000000000", out, length);
    request_of("60000000280005043605000000000000000000000300000001000100000001000000000008000100687462003400028030000100"
               "00010000ffff00000100000000010000ffff000001000000e8030000e8030000000000000000000000000000", bytes, &request);
    CHECK(neli_put_attribute(ext_ack, sizeof ext_ack, &writer, NELI_ANSWER_TEXT, text, strlen(text) + 1) == NELI_OK);
    CHECK(neli_kernel_ack(&request, ext_ack, writer.end, out, sizeof out, &length) == NELI_OK);
    want_bytes("6800000002000003360500002b3100000000000060000000280005043605000000000000430001007363685f6874623a20717561"
               "6e74756d206f6620636c61737320313030303120697320736d616c6c2e20436f6e736964657220723271206368616e67652e0000",
               out, length);
    out[0] = 7;
    CHECK(neli_kernel_ack(&request, ext_ack, 3, out, sizeof out, &length) == NELI_LENGTH && out[0] == 7);
    ext_ack[0] = 3;
    CHECK(neli_kernel_ack(&request, ext_ack, 4, out, sizeof out, &length) == NELI_LENGTH && out[0] == 7);
    CHECK(neli_kernel_ack(NULL, NULL, 0, out, sizeof out, &length) == NELI_NULL);
    CHECK(neli_kernel_ack(&request, NULL, 4, out, sizeof out, &length) == NELI_NULL);
    CHECK(neli_kernel_ack(&request, NULL, 0, NULL, 36, &length) == NELI_NULL);
}

/* Errors, by linux/netlink.h: -19 (ENODEV), the header or the whole request, with zeros to a multiple of four. */
static void check_errors(void) {
    uint8_t bytes[64], out[64];
    struct neli_request request;
    size_t length = 0, size = bytes_of("13000000120005000700000009000000" "01020300", bytes);
    struct neli_walk walk = {0, size};
    CHECK(neli_next_request(bytes, size, &walk, PORT, &request) == NELI_ITEM && request.message.payload_length == 3);
    CHECK(neli_kernel_capped_error(&request, -19, NULL, 0, out, sizeof out, &length) == NELI_OK);
    want_bytes("2400000002000001070000002b310000" "edffffff" "13000000120005000700000009000000", out, length);
    CHECK(neli_kernel_error(bytes, size, &request, -19, NULL, 0, out, sizeof out, &length) == NELI_OK);
    want_bytes("2800000002000000070000002b310000" "edffffff" "13000000120005000700000009000000" "01020300", out, length);
    CHECK(neli_kernel_error(bytes, size, &request, -19, NULL, 0, out, 39, &length) == NELI_ROOM && length == 40);
    CHECK(neli_kernel_error(bytes, 18, &request, -19, NULL, 0, out, sizeof out, &length) == NELI_PLACE && length == 40);
    CHECK(neli_kernel_error(NULL, size, &request, -19, NULL, 0, out, sizeof out, &length) == NELI_NULL);
    CHECK(neli_kernel_capped_error(&request, -19, NULL, 0, out, sizeof out, NULL) == NELI_NULL);
}

/* A reply and a notification, by linux/netlink.h. */
static void check_messages(void) {
    uint8_t bytes[64], out[64];
    struct neli_request request;
    size_t length = 0;
    request_of("10000000120001000700000000000000", bytes, &request);
    CHECK(neli_kernel_reply(&request, 16, 0x20, "abcde", 5, out, sizeof out, &length) == NELI_OK);
    want_bytes("1800000010002000070000002b310000" "6162636465000000", out, length);
    CHECK(neli_kernel_reply(&request, 16, 0, NULL, 0, out, 15, &length) == NELI_ROOM && length == 16);
    CHECK(neli_kernel_reply(&request, 16, 0, NULL, 1, out, 15, &length) == NELI_NULL);
    CHECK(neli_kernel_notification(17, 0, 3, 9, "abcd", 4, out, sizeof out, &length) == NELI_OK);
    want_bytes("14000000110000000300000009000000" "61626364", out, length);
    CHECK(neli_kernel_notification(17, 0, 0, 0, "abcd", 4, out, 19, &length) == NELI_ROOM && length == 20);
    CHECK(neli_kernel_notification(17, 0, 0, 0, "abcd", 4, NULL, 1, &length) == NELI_NULL);
}

/* A dump of three messages in datagrams of at most 44 bytes, of which one is begun sooner, by linux/netlink.h. */
static void check_dump(void) {
    uint8_t bytes[64], out[64];
    struct neli_request request;
    struct neli_kernel_dump dump = NELI_KERNEL_DUMP_CLOSED;
    size_t length = 0;
    request_of("10000000120001030700000000000000", bytes, &request);
    CHECK(neli_kernel_dump_push(&dump, 16, 0, NULL, 0) == NELI_STATE);
    CHECK(neli_kernel_dump_next(&dump, out, sizeof out, &length) == NELI_STATE);
    CHECK(neli_kernel_dump_new(&dump, &request, 44) == NELI_OK);
    CHECK(neli_kernel_dump_new(&dump, &request, 44) == NELI_STATE);
    CHECK(neli_kernel_dump_push(&dump, 16, 0, "abcd", 4) == NELI_OK);
    CHECK(neli_kernel_dump_push(&dump, 16, 0x10, "efgh", 4) == NELI_OK);
    CHECK(neli_kernel_dump_push(&dump, 16, 0, out, 29) == NELI_LENGTH);
    CHECK(neli_kernel_dump_begin_datagram(&dump) == NELI_OK && neli_kernel_dump_begin_datagram(&dump) == NELI_OK);
    CHECK(neli_kernel_dump_push_reply(&dump, 16, 0, "ijkl", 4) == NELI_OK);
    CHECK(neli_kernel_dump_next(&dump, out, sizeof out, &length) == NELI_WAITS);
    CHECK(neli_kernel_dump_finish(&dump, 0, 0, "abc", 3) == NELI_LENGTH);
    CHECK(neli_kernel_dump_finish(&dump, 0x20, -19, NULL, 0) == NELI_OK);
    CHECK(neli_kernel_dump_finish(&dump, 0, 0, NULL, 0) == NELI_STATE);
    CHECK(neli_kernel_dump_push(&dump, 16, 0, NULL, 0) == NELI_STATE);
    CHECK(neli_kernel_dump_begin_datagram(&dump) == NELI_STATE);
    CHECK(neli_kernel_dump_next(&dump, out, 39, &length) == NELI_ROOM && length == 40);
    CHECK(neli_kernel_dump_next(&dump, out, 40, &length) == NELI_ITEM);
    want_bytes("1400000010000200070000002b310000" "61626364" "1400000010001200070000002b310000" "65666768", out, length);
    CHECK(neli_kernel_dump_next(&dump, out, sizeof out, &length) == NELI_ITEM);
    want_bytes("1400000010000000070000002b310000" "696a6b6c" "1400000003002200070000002b310000" "edffffff", out, length);
    CHECK(neli_kernel_dump_next(&dump, out, sizeof out, &length) == NELI_END && length == 40);
    CHECK(neli_kernel_dump_next(&dump, out, sizeof out, &length) == NELI_END);
    CHECK(neli_kernel_dump_free(&dump) == NELI_OK && neli_kernel_dump_free(&dump) == NELI_OK);
    CHECK(neli_kernel_dump_finish(&dump, 0, 0, NULL, 0) == NELI_STATE);
    CHECK(neli_kernel_dump_new(NULL, &request, 44) == NELI_NULL && neli_kernel_dump_free(NULL) == NELI_NULL);
    CHECK(neli_kernel_dump_push(&dump, 16, 0, NULL, 1) == NELI_NULL);
}

int main(void) {
    check_requests();
    check_answerings();
    check_acknowledgements();
    check_errors();
    check_messages();
    check_dump();
    printf("kernel.c: %s\n", failures == 0 ? "each call answers as include/neli.h says" : "failed");
    return failures != 0;
}
