/* Plays a session of include/neli.h: what goes out and when, who reads what comes, losses, and what each call refuses.
 * Compile it with all warnings, and with the address sanitizer. Bytes and numbers are those of linux/netlink.h and
 * linux/rtnetlink.h, by hand: 18 is RTM_GETLINK, 26 RTM_GETROUTE, 16 RTM_NEWLINK, 24 RTM_NEWROUTE. */
#include "neli.h"

#include <stdio.h>
#include <string.h>

static int failures;
static uint8_t first_byte;

#define CHECK(condition)                                                      \
    do {                                                                      \
        if (!(condition)) {                                                   \
            fprintf(stderr, "session.c:%d: %s\n", __LINE__, #condition);      \
            failures++;                                                       \
        }                                                                     \
    } while (0)

enum { PORT = 9, ACK = 4, MULTI = 2, INTERRUPTED = 0x10, DUMP = 0x300, EPERM_ = 1, ENOBUFS_ = 105 };

/* Whether this goes out next, and was sent. */
static bool goes_out(struct neli_session *session, const uint8_t *wanted, size_t size) {
    const uint8_t *bytes, *again;
    size_t length, same;
    if (neli_session_outgoing(session, &bytes, &length) != NELI_ITEM) return false;
    if (length != size || memcmp(bytes, wanted, size) != 0) return false;
    if (neli_session_outgoing(session, &again, &same) != NELI_ITEM || again != bytes || same != length) return false;
    return neli_session_sent(session) == NELI_OK;
}

/* Whether the request with this number, of a type and flags without a body, goes out next. */
static bool request_goes_out(struct neli_session *session, uint8_t type, uint8_t flags, uint8_t number) {
    const uint8_t wanted[16] = {16, 0, 0, 0, type, 0, flags, 0, number, 0, 0, 0, PORT, 0, 0, 0};
    return goes_out(session, wanted, sizeof wanted);
}

static bool nothing_goes_out(struct neli_session *session) {
    const uint8_t *bytes;
    size_t length;
    return neli_session_outgoing(session, &bytes, &length) == NELI_WAITS && bytes != NULL && length == 0;
}

/* Takes in a message with a payload of one number. */
static int32_t come(struct neli_session *session, uint8_t type, uint8_t flags, uint8_t number, uint8_t port,
                    int32_t payload, uint32_t group, bool is_joined) {
    uint8_t bytes[20] = {20, 0, 0, 0, type, 0, flags, 0, number, 0, 0, 0, port, 0, 0, 0};
    size_t taken = 0;
    memcpy(bytes + 16, &payload, sizeof payload);
    const int32_t code = neli_session_receive(session, bytes, sizeof bytes, group, is_joined, &taken);
    CHECK(code != NELI_OK || taken == sizeof bytes);
    return code;
}

/* An error (type 2) of this code for a request, or its acknowledgement (code 0), with the request's header. */
static int32_t answer(struct neli_session *session, uint8_t number, int32_t code) {
    uint8_t bytes[36] = {36, 0, 0, 0, 2, 0, 0, 1, number, 0, 0, 0, PORT, 0, 0, 0,
                         0, 0, 0, 0, 16, 0, 0, 0, 18, 0, 5, 0, number, 0, 0, 0, PORT, 0, 0, 0};
    size_t taken;
    memcpy(bytes + 16, &code, sizeof code);
    return neli_session_receive(session, bytes, sizeof bytes, 0, false, &taken);
}

/* The code of the next item of a request, which is passed: its bytes are gone then, but the first one. */
static int32_t read_one(struct neli_session *session, uint32_t number, struct neli_lent *lent) {
    const int32_t code = neli_session_next(session, NELI_READER_REQUEST, number, lent);
    first_byte = lent->length > 0 ? lent->bytes[0] : 0;
    lent->bytes = NULL;
    CHECK(neli_session_pass(session, NELI_READER_REQUEST, number) == NELI_OK);
    return code;
}

static int32_t stands(struct neli_session *session, uint32_t number, int32_t error) {
    struct neli_verdict verdict = {7, 7};
    const int32_t code = neli_session_verdict(session, number, &verdict);
    const bool is_unchanged = verdict.error == 7 && verdict.filtered == 7;
    CHECK(code == NELI_HANDLE ? is_unchanged : verdict.error == error && verdict.filtered == 0);
    return code;
}

/* Two dumps go out by turns, and a get between them. */
static void check_turns(struct neli_session *session) {
    const uint8_t body[16] = {0}, odd[3] = {1, 2, 3};
    const uint8_t first[32] = {32, 0, 0, 0, 18, 0, 1, 3, 7, 0, 0, 0, PORT, 0, 0, 0};
    const uint8_t second[28] = {28, 0, 0, 0, 26, 0, 1, 3, 8, 0, 0, 0, PORT, 0, 0, 0};
    const uint8_t get[20] = {20, 0, 0, 0, 18, 0, 5, 0, 9, 0, 0, 0, PORT, 0, 0, 0, 1, 2, 3, 0};
    struct neli_lent lent, again;
    uint32_t number = 4711;
    CHECK(nothing_goes_out(session));
    CHECK(neli_session_is_in_use(session, 7) == NELI_OK && stands(session, 7, 0) == NELI_HANDLE);
    CHECK(neli_session_next(session, NELI_READER_REQUEST, 7, &lent) == NELI_HANDLE);
    CHECK(neli_session_set_number(session, 7) == NELI_OK);
    CHECK(neli_session_send(session, 18, DUMP, body, 16, &number) == NELI_OK && number == 7);
    CHECK(neli_session_send(session, 26, DUMP, body, 12, &number) == NELI_OK && number == 8);
    CHECK(neli_session_send(session, 18, ACK, odd, 3, &number) == NELI_OK && number == 9);
    CHECK(neli_session_is_in_use(session, 8) == NELI_IN_USE && stands(session, 8, 0) == NELI_WAITS);
    CHECK(neli_session_next(session, NELI_READER_REQUEST, 8, &lent) == NELI_WAITS);
    CHECK(lent.bytes != NULL && lent.length == 0);
    CHECK(goes_out(session, first, sizeof first) && goes_out(session, get, sizeof get) && nothing_goes_out(session));
    CHECK(come(session, 16, MULTI, 7, PORT, 41, 0, false) == NELI_OK);
    CHECK(come(session, 16, 0, 9, PORT, 42, 0, false) == NELI_OK && answer(session, 9, 0) == NELI_OK);
    CHECK(nothing_goes_out(session));
    CHECK(neli_session_next(session, NELI_READER_REQUEST, 7, &lent) == NELI_ITEM);
    CHECK(neli_session_next(session, NELI_READER_REQUEST, 7, &again) == NELI_ITEM && again.bytes == lent.bytes);
    CHECK(lent.message.length == 20 && lent.message.type == 16);
    CHECK(lent.message.flags == MULTI && lent.message.number == 7);
    CHECK(lent.message.port == PORT && lent.message.payload == 0 && lent.message.payload_length == 4);
    CHECK(lent.length == 4 && lent.bytes[0] == 41 && lent.error == 0);
    CHECK(neli_session_pass(session, NELI_READER_REQUEST, 7) == NELI_OK);
    CHECK(read_one(session, 7, &lent) == NELI_WAITS && stands(session, 7, 0) == NELI_WAITS);
    CHECK(read_one(session, 9, &lent) == NELI_ITEM && first_byte == 42 && stands(session, 9, 0) == NELI_WAITS);
    CHECK(read_one(session, 9, &lent) == NELI_ITEM && lent.message.type == 2 && lent.error == 0);
    CHECK(read_one(session, 9, &lent) == NELI_END && stands(session, 9, 0) == NELI_OK);
    CHECK(come(session, 3, MULTI, 7, PORT, 0, 0, false) == NELI_OK && goes_out(session, second, sizeof second));
    CHECK(read_one(session, 7, &lent) == NELI_ITEM && lent.message.type == 3);
    CHECK(read_one(session, 7, &lent) == NELI_END && stands(session, 7, 0) == NELI_OK);
    CHECK(answer(session, 8, -19) == NELI_OK && read_one(session, 8, &lent) == NELI_KERNEL_ERROR);
    CHECK(lent.error == -19 && lent.message.type == 2 && lent.length == 20);
    CHECK(read_one(session, 8, &lent) == NELI_END && stands(session, 8, -19) == NELI_KERNEL_ERROR);
    for (number = 7; number < 10; number++)
        CHECK(neli_session_close(session, number) == NELI_OK && neli_session_is_in_use(session, number) == NELI_OK);
    CHECK(neli_session_next(session, NELI_READER_REQUEST, 7, &lent) == NELI_HANDLE);
    CHECK(neli_session_send(session, 18, DUMP, body, 4, &number) == NELI_OK && number == 10);
    CHECK(neli_session_outgoing(session, &lent.bytes, &lent.length) == NELI_ITEM);
    CHECK(neli_session_sent(session) == NELI_OK);
    CHECK(come(session, 3, MULTI | INTERRUPTED, 10, PORT, 0, 0, false) == NELI_OK);
    CHECK(read_one(session, 10, &lent) == NELI_ITEM && stands(session, 10, 0) == NELI_INTERRUPTED);
    CHECK(neli_session_close(session, 10) == NELI_OK);
}

/* After ENOBUFS nothing goes out until the link is seen empty; who waited reads the loss, once. */
static void check_losses(struct neli_session *session) {
    const enum neli_reader others[] = {NELI_READER_MULTICAST, NELI_READER_UNASKED};
    struct neli_lent lent;
    uint32_t number;
    size_t taken;
    const uint8_t cut[10] = {20};
    CHECK(neli_session_send(session, 18, ACK, NULL, 0, &number) == NELI_OK && number == 11);
    CHECK(request_goes_out(session, 18, 5, 11) && neli_session_fault(session, ENOBUFS_) == NELI_OK);
    CHECK(neli_session_send(session, 18, ACK, NULL, 0, &number) == NELI_OK);
    CHECK(number == 12 && nothing_goes_out(session));
    CHECK(neli_session_next(session, NELI_READER_REQUEST, 11, &lent) == NELI_LINK && lent.error == ENOBUFS_);
    CHECK(lent.bytes != NULL && lent.length == 0 && stands(session, 11, 0) == NELI_WAITS);
    CHECK(read_one(session, 11, &lent) == NELI_LINK && read_one(session, 11, &lent) == NELI_END);
    CHECK(stands(session, 11, ENOBUFS_) == NELI_LINK && neli_session_close(session, 11) == NELI_OK);
    CHECK(neli_session_is_in_use(session, 11) == NELI_IN_USE && neli_session_quiet(session) == NELI_OK);
    CHECK(neli_session_is_in_use(session, 11) == NELI_OK);
    for (size_t i = 0; i < 2; i++) {
        CHECK(neli_session_next(session, others[i], 0, &lent) == NELI_LINK && lent.error == ENOBUFS_);
        CHECK(neli_session_pass(session, others[i], 0) == NELI_OK);
        CHECK(neli_session_next(session, others[i], 0, &lent) == NELI_WAITS);
    }
    /* What is not sent. */
    CHECK(neli_session_outgoing(session, &lent.bytes, &lent.length) == NELI_ITEM);
    CHECK(neli_session_not_sent(session, EPERM_) == NELI_OK && nothing_goes_out(session));
    CHECK(read_one(session, 12, &lent) == NELI_LINK);
    CHECK(lent.error == EPERM_ && read_one(session, 12, &lent) == NELI_END);
    CHECK(stands(session, 12, EPERM_) == NELI_LINK && neli_session_close(session, 12) == NELI_OK);
    CHECK(neli_session_is_in_use(session, 12) == NELI_OK);
    /* What is not answered, and what is closed before its answer. */
    CHECK(neli_session_send(session, 18, ACK, NULL, 0, &number) == NELI_OK && number == 13);
    CHECK(request_goes_out(session, 18, 5, 13) && stands(session, 13, 0) == NELI_WAITS);
    CHECK(neli_session_send(session, 18, ACK, NULL, 0, &number) == NELI_OK && number == 14);
    CHECK(request_goes_out(session, 18, 5, 14) && neli_session_close(session, 14) == NELI_OK);
    CHECK(neli_session_next(session, NELI_READER_REQUEST, 14, &lent) == NELI_HANDLE);
    CHECK(neli_session_is_in_use(session, 14) == NELI_IN_USE && neli_session_quiet(session) == NELI_OK);
    CHECK(neli_session_is_in_use(session, 14) == NELI_OK && stands(session, 13, 0) == NELI_UNENDED);
    CHECK(read_one(session, 13, &lent) == NELI_END && neli_session_close(session, 13) == NELI_OK);
    /* A datagram that is cut short. */
    CHECK(neli_session_send(session, 18, ACK, NULL, 0, &number) == NELI_OK && number == 15);
    CHECK(request_goes_out(session, 18, 5, 15));
    CHECK(neli_session_receive(session, cut, sizeof cut, 0, false, &taken) == NELI_OK && taken == sizeof cut);
    CHECK(read_one(session, 15, &lent) == NELI_SHORT && lent.error == 0 && stands(session, 15, 0) == NELI_SHORT);
    for (size_t i = 0; i < 2; i++) {
        CHECK(neli_session_next(session, others[i], 0, &lent) == NELI_SHORT && lent.error == 0);
        CHECK(neli_session_pass(session, others[i], 0) == NELI_OK);
    }
    CHECK(neli_session_close(session, 15) == NELI_OK && neli_session_quiet(session) == NELI_OK);
}

/* Multicast gets what comes for groups, and the unasked what answers nothing. */
static void check_others(struct neli_session *session) {
    struct neli_lent lent;
    CHECK(come(session, 16, 0, 0, 0, 1, 1, true) == NELI_OK && come(session, 16, 0, 0, 0, 2, 0, false) == NELI_OK);
    CHECK(come(session, 16, 0, 0, PORT, 3, 1, false) == NELI_OK);
    CHECK(come(session, 24, 0, 0, PORT, 4, 7, true) == NELI_OK);
    CHECK(neli_session_next(session, NELI_READER_MULTICAST, 4711, &lent) == NELI_ITEM && lent.bytes[0] == 1);
    CHECK(neli_session_pass(session, NELI_READER_MULTICAST, 4711) == NELI_OK);
    CHECK(neli_session_next(session, NELI_READER_MULTICAST, 0, &lent) == NELI_ITEM && lent.bytes[0] == 4);
    CHECK(lent.message.type == 24 && neli_session_pass(session, NELI_READER_MULTICAST, 0) == NELI_OK);
    CHECK(neli_session_next(session, NELI_READER_MULTICAST, 0, &lent) == NELI_WAITS);
    CHECK(neli_session_next(session, NELI_READER_UNASKED, 0, &lent) == NELI_ITEM && lent.bytes[0] == 2);
    CHECK(neli_session_pass(session, NELI_READER_UNASKED, 0) == NELI_OK && answer(session, 99, -19) == NELI_OK);
    CHECK(neli_session_next(session, NELI_READER_UNASKED, 0, &lent) == NELI_ITEM && lent.error == 0);
    CHECK(lent.message.type == 2 && lent.message.number == 99);
    CHECK(neli_session_pass(session, NELI_READER_UNASKED, 0) == NELI_OK);
    CHECK(neli_session_next(session, NELI_READER_UNASKED, 0, &lent) == NELI_WAITS);
    CHECK(come(session, 16, 0, 0, 0, 1, 1, true) == NELI_OK && neli_session_close_multicast(session) == NELI_OK);
    CHECK(neli_session_next(session, NELI_READER_MULTICAST, 0, &lent) == NELI_HANDLE);
    CHECK(neli_session_pass(session, NELI_READER_MULTICAST, 0) == NELI_OK);
    CHECK(neli_c_session_next(session, 3, 0, &lent) == NELI_HANDLE && neli_c_session_pass(session, 3, 0) == NELI_OK);
}

/* Requests that the caller wrote, with sequence numbers of their own. */
static void check_written(struct neli_session *session) {
    const uint8_t gets[36] = {16, 0, 0, 0, 18, 0, 5, 0, 50, 0, 0, 0, PORT, 0, 0, 0,
                              20, 0, 0, 0, 18, 0, 5, 0, 51, 0, 0, 0, PORT, 0, 0, 0, 1, 2, 3, 4};
    const uint8_t dumps[40] = {20, 0, 0, 0, 18, 0, 1, 3, 52, 0, 0, 0, PORT, 0, 0, 0, 0, 0, 0, 0,
                               20, 0, 0, 0, 26, 0, 1, 3, 53, 0, 0, 0, PORT, 0, 0, 0, 0, 0, 0, 0};
    struct neli_lent lent;
    uint32_t number = 4711;
    CHECK(neli_session_send_all(session, gets, 0) == NELI_SHORT);
    CHECK(neli_session_send_all(session, gets, 35) == NELI_SHORT);
    CHECK(neli_session_send_all(session, dumps, sizeof dumps) == NELI_KIND && nothing_goes_out(session));
    CHECK(neli_session_send_all(session, gets, sizeof gets) == NELI_OK);
    CHECK(neli_session_send_all(session, gets, 16) == NELI_IN_USE && goes_out(session, gets, sizeof gets));
    CHECK(nothing_goes_out(session) && answer(session, 51, 0) == NELI_OK && answer(session, 50, -19) == NELI_OK);
    CHECK(read_one(session, 50, &lent) == NELI_KERNEL_ERROR && read_one(session, 51, &lent) == NELI_ITEM);
    CHECK(neli_session_close(session, 50) == NELI_OK && neli_session_close(session, 51) == NELI_OK);
    CHECK(neli_session_send_expecting(session, 4, gets, 16) == NELI_KIND);
    CHECK(neli_session_send_expecting(session, NELI_ANSWERING_DUMP, gets, sizeof gets) == NELI_KIND);
    CHECK(neli_session_send_expecting(session, NELI_ANSWERING_SILENCE, gets, 15) == NELI_SHORT);
    CHECK(neli_session_send_expecting(session, NELI_ANSWERING_SILENCE, gets, 16) == NELI_OK);
    CHECK(goes_out(session, gets, 16) && neli_session_quiet(session) == NELI_OK && stands(session, 50, 0) == NELI_OK);
    CHECK(neli_session_close(session, 50) == NELI_OK && neli_session_set_number(session, UINT32_MAX) == NELI_OK);
    CHECK(neli_session_take_number(session, &number) == NELI_OK && number == UINT32_MAX);
    CHECK(neli_session_take_number(session, &number) == NELI_OK && number == 0);
}

/* A session that is closed, and pointers that are null. */
static void check_refusals(void) {
    struct neli_session closed = NELI_SESSION_CLOSED;
    struct neli_session *const session = &closed, *const none = NULL;
    struct neli_verdict verdict = {7, 7};
    struct neli_lent lent;
    const uint8_t *at;
    const uint8_t bytes[16] = {16};
    size_t length = 4711;
    uint32_t number = 4711;
    CHECK(neli_session_set_number(session, 1) == NELI_STATE && neli_session_set_number(none, 1) == NELI_NULL);
    CHECK(neli_session_send(session, 18, 0, NULL, 0, &number) == NELI_STATE && number == 4711);
    CHECK(neli_session_send(none, 18, 0, NULL, 0, &number) == NELI_NULL);
    CHECK(neli_session_send(session, 18, 0, NULL, 1, &number) == NELI_NULL);
    CHECK(neli_session_send(session, 18, 0, NULL, 0, NULL) == NELI_NULL);
    CHECK(neli_session_send_all(session, bytes, 16) == NELI_STATE);
    CHECK(neli_session_send_all(none, bytes, 16) == NELI_NULL);
    CHECK(neli_session_send_all(session, NULL, 16) == NELI_NULL);
    CHECK(neli_session_send_expecting(session, 0, bytes, 16) == NELI_STATE);
    CHECK(neli_session_send_expecting(none, 0, bytes, 16) == NELI_NULL);
    CHECK(neli_session_send_expecting(session, 0, NULL, 16) == NELI_NULL);
    CHECK(neli_session_take_number(session, &number) == NELI_STATE && number == 4711);
    CHECK(neli_session_take_number(none, &number) == NELI_NULL && neli_session_take_number(session, NULL) == NELI_NULL);
    CHECK(neli_session_outgoing(session, &at, &length) == NELI_STATE && at != NULL && length == 0);
    CHECK(neli_session_outgoing(none, &at, &length) == NELI_NULL);
    CHECK(neli_session_outgoing(session, NULL, &length) == NELI_NULL);
    CHECK(neli_session_outgoing(session, &at, NULL) == NELI_NULL);
    CHECK(neli_session_sent(session) == NELI_STATE && neli_session_sent(none) == NELI_NULL);
    CHECK(neli_session_not_sent(session, 1) == NELI_STATE && neli_session_not_sent(none, 1) == NELI_NULL);
    CHECK(neli_session_receive(session, bytes, 16, 0, false, &length) == NELI_STATE && length == 0);
    CHECK(neli_session_receive(none, bytes, 16, 0, false, &length) == NELI_NULL);
    CHECK(neli_session_receive(session, NULL, 16, 0, false, &length) == NELI_NULL);
    CHECK(neli_session_receive(session, bytes, 16, 0, false, NULL) == NELI_NULL);
    CHECK(neli_session_fault(session, 105) == NELI_STATE && neli_session_fault(none, 105) == NELI_NULL);
    CHECK(neli_session_quiet(session) == NELI_STATE && neli_session_quiet(none) == NELI_NULL);
    CHECK(neli_session_next(session, NELI_READER_UNASKED, 0, &lent) == NELI_STATE);
    CHECK(lent.bytes != NULL && lent.length == 0);
    CHECK(neli_session_next(none, NELI_READER_UNASKED, 0, &lent) == NELI_NULL);
    CHECK(neli_session_next(session, NELI_READER_UNASKED, 0, NULL) == NELI_NULL);
    CHECK(neli_session_pass(session, NELI_READER_UNASKED, 0) == NELI_STATE);
    CHECK(neli_session_pass(none, NELI_READER_UNASKED, 0) == NELI_NULL);
    CHECK(neli_session_verdict(session, 0, &verdict) == NELI_STATE && verdict.error == 7 && verdict.filtered == 7);
    CHECK(neli_session_verdict(none, 0, &verdict) == NELI_NULL && neli_session_verdict(session, 0, NULL) == NELI_NULL);
    CHECK(neli_session_close(session, 0) == NELI_STATE && neli_session_close(none, 0) == NELI_NULL);
    CHECK(neli_session_close_multicast(session) == NELI_STATE && neli_session_close_multicast(none) == NELI_NULL);
    CHECK(neli_session_is_in_use(session, 0) == NELI_STATE && neli_session_is_in_use(none, 0) == NELI_NULL);
    CHECK(neli_session_ready(session, &number) == NELI_STATE && number == 4711);
    CHECK(neli_session_ready(none, &number) == NELI_NULL && neli_session_ready(session, NULL) == NELI_NULL);
    CHECK(neli_session_is_ready(session, NELI_READER_UNASKED, 0) == NELI_STATE);
    CHECK(neli_session_is_ready(none, NELI_READER_UNASKED, 0) == NELI_NULL);
    CHECK(neli_session_new(none, 0, PORT, false) == NELI_NULL && neli_session_free(none) == NELI_NULL);
    CHECK(neli_session_free(session) == NELI_OK && !closed.is_open);
    /* Without the unasked. */
    CHECK(neli_session_new(session, 0, PORT, false) == NELI_OK && come(session, 16, 0, 0, 0, 2, 0, false) == NELI_OK);
    CHECK(neli_session_next(session, NELI_READER_UNASKED, 0, &lent) == NELI_HANDLE);
    CHECK(neli_session_free(session) == NELI_OK);
}

/* Who has something to read, in order. */
static void check_ready(struct neli_session *session) {
    uint32_t one, two, ready = 4711;
    struct neli_lent lent;
    CHECK(neli_session_set_number(session, 40) == NELI_OK);
    CHECK(neli_session_send(session, 18, 0, NULL, 0, &one) == NELI_OK && request_goes_out(session, 18, 1, 40));
    CHECK(neli_session_send(session, 26, 0, NULL, 0, &two) == NELI_OK && request_goes_out(session, 26, 1, 41));
    CHECK(neli_session_ready(session, &ready) == NELI_WAITS && ready == 4711);
    CHECK(neli_session_is_ready(session, NELI_READER_REQUEST, two) == NELI_WAITS);
    CHECK(come(session, 24, MULTI, 41, PORT, 1, 0, false) == NELI_OK && neli_session_ready(session, &ready) == NELI_ITEM);
    CHECK(ready == two && neli_session_is_ready(session, NELI_READER_REQUEST, two) == NELI_ITEM);
    CHECK(come(session, 16, MULTI, 40, PORT, 1, 0, false) == NELI_OK);
    CHECK(come(session, 24, MULTI, 41, PORT, 2, 0, false) == NELI_OK);
    CHECK(neli_session_ready(session, &ready) == NELI_ITEM && ready == two);
    CHECK(neli_session_pass(session, NELI_READER_REQUEST, two) == NELI_OK);
    CHECK(neli_session_ready(session, &ready) == NELI_ITEM && ready == one);
    CHECK(neli_session_next(session, NELI_READER_REQUEST, one, &lent) == NELI_ITEM && lent.message.type == 16);
    CHECK(neli_session_close(session, one) == NELI_OK && neli_session_ready(session, &ready) == NELI_ITEM);
    CHECK(ready == two && neli_session_close(session, two) == NELI_OK);
    CHECK(neli_session_ready(session, &ready) == NELI_WAITS && neli_session_quiet(session) == NELI_OK);
    CHECK(neli_session_is_ready(session, NELI_READER_MULTICAST, 0) == NELI_WAITS);
    CHECK(come(session, 16, 0, 0, 0, 1, 1, true) == NELI_OK);
    CHECK(neli_session_is_ready(session, NELI_READER_MULTICAST, 0) == NELI_ITEM);
    CHECK(neli_session_pass(session, NELI_READER_MULTICAST, 0) == NELI_OK);
    CHECK(neli_session_is_ready(session, NELI_READER_UNASKED, 0) == NELI_WAITS);
    CHECK(neli_session_is_ready(session, (enum neli_reader)3, 0) == NELI_WAITS);
}

/* A list is current after a whole answer to the request that reads it, without a loss since that was sent. */
static void check_lists(void) {
    struct neli_list list = {0};
    CHECK(neli_list_ended(&list, 7, NELI_OK) == NELI_OK && list.state == NELI_LIST_STALE);
    CHECK(neli_list_requested(&list, 7) == NELI_OK && list.state == NELI_LIST_READ && list.number == 7);
    CHECK(neli_list_ended(&list, 8, NELI_OK) == NELI_OK && list.state == NELI_LIST_READ);
    CHECK(neli_list_ended(&list, 7, NELI_OK) == NELI_OK && list.state == NELI_LIST_CURRENT);
    CHECK(neli_list_lost(&list) == NELI_OK && list.state == NELI_LIST_STALE);
    for (int32_t code = NELI_UNENDED; code <= NELI_INTERRUPTED; code++) {
        CHECK(neli_list_requested(&list, 9) == NELI_OK && neli_list_ended(&list, 9, code) == NELI_OK);
        CHECK(list.state == (code == NELI_OK ? NELI_LIST_CURRENT : NELI_LIST_STALE));
    }
    CHECK(neli_list_requested(&list, 7) == NELI_OK && neli_list_lost(&list) == NELI_OK);
    CHECK(neli_list_ended(&list, 7, NELI_OK) == NELI_OK && list.state == NELI_LIST_STALE);
    list.state = 3;
    CHECK(neli_list_ended(&list, 0, NELI_OK) == NELI_OK && list.state == NELI_LIST_STALE);
    CHECK(neli_list_requested(NULL, 7) == NELI_NULL && neli_list_ended(NULL, 7, NELI_OK) == NELI_NULL);
    CHECK(neli_list_lost(NULL) == NELI_NULL);
}

/* Linux refuses a dump beside another with EBUSY (16), and begins one without room for it with ENOBUFS. */
static void check_passing(void) {
    CHECK(neli_is_passing(NELI_INTERRUPTED, 0) && neli_is_passing(NELI_LINK, ENOBUFS_) && neli_is_passing(NELI_SHORT, 0));
    CHECK(neli_is_passing(NELI_KERNEL_ERROR, -16) && neli_is_passing(NELI_KERNEL_ERROR, -ENOBUFS_));
    CHECK(!neli_is_passing(NELI_KERNEL_ERROR, -EPERM_) && !neli_is_passing(NELI_KERNEL_ERROR, 16));
    CHECK(!neli_is_passing(NELI_OK, 0) && !neli_is_passing(NELI_WAITS, 0) && !neli_is_passing(NELI_UNENDED, 0));
}

int main(void) {
    struct neli_session session = NELI_SESSION_CLOSED;
    check_refusals();
    CHECK(neli_session_new(&session, 0, PORT, true) == NELI_OK && neli_session_new(&session, 0, 1, true) == NELI_STATE);
    check_turns(&session);
    check_losses(&session);
    check_ready(&session);
    check_others(&session);
    check_written(&session);
    check_lists();
    check_passing();
    CHECK(neli_session_free(&session) == NELI_OK && neli_session_free(&session) == NELI_OK);
    CHECK(neli_session_quiet(&session) == NELI_STATE);
    printf("session.c: %s\n", failures == 0 ? "each call answers as include/neli.h says" : "failed");
    return failures != 0;
}
