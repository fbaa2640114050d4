/* Does so much of one thing through the calls for C, for `run-growth`, which counts its instructions.
 *
 *   growth messages N   hands in and reads N messages of 16 bytes, of one handle
 *   growth handles N    opens N handles, and hands in, reads and closes for each
 *   growth strays N     hands in N messages that answer no request, while 1000 handles are open
 *   growth rows N       reads a table of N rows, and finds each of them; 16000 at most
 *   growth depth N      prints a message with N attributes for each of 1000 times, each in the one before; 9 at most
 *
 * Each counts what comes, and ends with status 1 where that is not what it has to be. */
#include "neli.h"
#include <stdio.h>
#include <stdlib.h>
#include <string.h>

enum { BATCH = 1000, HEADER = 16, PRINTED = 1000, ROOM = 4096 };

static void fail(const char *what) {
    fprintf(stderr, "growth: %s\n", what);
    exit(1);
}

static void hand_in(struct neli_router *router, uint32_t number) {
    uint8_t message[HEADER] = {HEADER, 0, 0, 0, 16, 0, 2, 0};
    memcpy(message + 8, &number, sizeof number);
    if (neli_router_datagram(router, message, sizeof message, NULL, 0) != NELI_OK) fail("a datagram is refused");
}

static void read_one(struct neli_router *router, size_t handle) {
    struct neli_item item;
    if (neli_router_read(router, handle, &item) != NELI_ITEM) fail("a message is not read");
}

static size_t open_one(struct neli_router *router) {
    struct neli_sent sent;
    uint8_t out[HEADER];
    if (neli_router_send(router, 16, 0, NULL, 0, out, sizeof out, &sent) != NELI_OK) fail("no handle");
    return sent.handle;
}

static void do_messages(struct neli_router *router, size_t n) {
    size_t handle = open_one(router);
    for (size_t i = 0; i < n; i += BATCH) {
        for (size_t k = 0; k < BATCH; k++) hand_in(router, 0);
        for (size_t k = 0; k < BATCH; k++) read_one(router, handle);
    }
}

static void do_handles(struct neli_router *router, size_t n) {
    size_t *handles = malloc(n * sizeof *handles);
    if (!handles) fail("no memory");
    for (size_t i = 0; i < n; i++) handles[i] = open_one(router);
    for (size_t i = 0; i < n; i++) hand_in(router, (uint32_t)i);
    for (size_t i = 0; i < n; i++) read_one(router, handles[i]);
    for (size_t i = 0; i < n; i++)
        if (neli_router_close(router, handles[i]) != NELI_OK) fail("a handle is not closed");
    free(handles);
}

static void do_strays(struct neli_router *router, size_t n) {
    size_t handle = 0;
    struct neli_item item;
    for (size_t i = 0; i < BATCH; i++) handle = open_one(router);
    for (size_t i = 0; i < n; i++) hand_in(router, BATCH);
    if (n && neli_router_read(router, handle, &item) != NELI_STRAY) fail("no stray has arrived");
}

static void add(struct neli_tables *tables, const char *text) {
    char reason[NELI_TEXT_SIZE];
    size_t line, length;
    if (neli_tables_add(tables, text, strlen(text), &line, reason, sizeof reason, &length) != NELI_OK)
        fail("a table is refused");
}

/* The text of a message of type 16, protocol 0, and how long it is. */
static size_t print(struct neli_tables *tables, const uint8_t *bytes, size_t length, char *out, size_t room) {
    struct neli_walk walk = {0, length};
    struct neli_message message;
    size_t size;
    if (neli_next_message(bytes, length, &walk, &message) != NELI_ITEM) fail("no message is found");
    if (neli_message_text(tables, 0, bytes, length, &message, out, room, &size) != NELI_OK) fail("no text");
    return size;
}

static void begin(uint8_t *out, size_t room, struct neli_writer *writer) {
    if (neli_begin_message(out, room, writer, 16, 0, 0, 0) != NELI_OK) fail("no message is begun");
}

static size_t end(uint8_t *out, size_t room, const struct neli_writer *writer) {
    if (neli_end_message(out, room, writer) != NELI_OK) fail("the message does not end");
    return writer->end;
}

/* A message of one attribute, of each number in turn. */
static void do_rows(struct neli_tables *tables, size_t n) {
    char *text = malloc(64 * (n + 4)), *at = text, out[ROOM], row[64];
    if (!text) fail("no memory");
    at += sprintf(at, "family f 0\nmessage M 16 nest=s\nset s\n");
    for (size_t i = 0; i < n; i++) at += sprintf(at, "  attr A%zu %zu u8\n", i, i);
    add(tables, text);
    for (size_t i = 0; i < n; i++) {
        uint8_t bytes[64], one = 1;
        struct neli_writer writer = {0, 0};
        begin(bytes, sizeof bytes, &writer);
        if (neli_put_attribute(bytes, sizeof bytes, &writer, (uint16_t)i, &one, 1) != NELI_OK) fail("no room");
        out[print(tables, bytes, end(bytes, sizeof bytes, &writer), out, sizeof out - 1)] = 0;
        sprintf(row, "A%zu 1", i);
        if (!strstr(out, row)) fail("a row is not found");
    }
}

static void do_depth(struct neli_tables *tables, size_t n) {
    static const char *text = "family f 0\nmessage M 16 nest=s\nset s\n  attr A 1 nest=s\n  attr B 2 u8\n";
    uint8_t bytes[ROOM], one = 1;
    char out[ROOM];
    struct neli_writer writer = {0, 0};
    size_t nests[9];
    if (n > 9) fail("nine at most");
    add(tables, text);
    begin(bytes, sizeof bytes, &writer);
    for (size_t i = 0; i < n; i++)
        if (neli_begin_nest(bytes, sizeof bytes, &writer, 1, &nests[i]) != NELI_OK) fail("no nest");
    if (neli_put_attribute(bytes, sizeof bytes, &writer, 2, &one, 1) != NELI_OK) fail("no attribute");
    for (size_t i = n; i-- > 0;)
        if (neli_end_nest(bytes, sizeof bytes, &writer, nests[i]) != NELI_OK) fail("a nest does not end");
    size_t length = end(bytes, sizeof bytes, &writer);
    for (size_t i = 0; i < PRINTED; i++) {
        out[print(tables, bytes, length, out, sizeof out - 1)] = 0;
        if (!strstr(out, "B 1")) fail("the innermost is not printed");
    }
}

int main(int count, char **words) {
    struct neli_router router = NELI_ROUTER_CLOSED;
    struct neli_tables tables = NELI_TABLES_CLOSED;
    if (count != 3) fail("two words");
    size_t n = strtoul(words[2], NULL, 10);
    if (neli_router_new(&router, 0) != NELI_OK || neli_tables_new(&tables) != NELI_OK) fail("no memory");
    if (!strcmp(words[1], "messages")) do_messages(&router, n);
    else if (!strcmp(words[1], "handles")) do_handles(&router, n);
    else if (!strcmp(words[1], "strays")) do_strays(&router, n);
    else if (!strcmp(words[1], "rows")) do_rows(&tables, n);
    else if (!strcmp(words[1], "depth")) do_depth(&tables, n);
    else fail("another word");
    neli_router_free(&router);
    neli_tables_free(&tables);
    return 0;
}
