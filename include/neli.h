/* Netlink for C: calls that read and write messages and attributes in your bytes, a router that delivers each reply to
 * its request, a session that also queues requests and knows where their answers end, and a kernel to test against.
 *
 * This header has no sockets: requests are returned as bytes, and you pass in the datagrams that arrive. Numbers are
 * those of a little-endian machine.
 *
 * Each call returns a code of `enum neli_code`: from 0 on a result, below 0 a refusal, which leaves its arguments
 * unchanged, unless the call states otherwise. A pointer that is null, or a length past PTRDIFF_MAX, returns NELI_NULL;
 * null with the length 0 is no bytes. `out` and other memory that is written must not overlap each other or what is
 * read.
 *
 * The calls of this header test pointers, and then call the exports of the library, which are declared below as
 * `neli_c_..` and are proved; those need pointers that are not null.
 *
 * Link with -lneli, which has sockets too (neli_host.h); or, in the repository, with libneli_c.a and, for the router's
 * memory, liblibc_c.a of the kit. */
#ifndef NELI_H
#define NELI_H

#include <stdbool.h>
#include <stddef.h>
#include <stdint.h>
#include <string.h>

#ifdef __cplusplus
extern "C" {
#endif

/* ---- Version ---- */

/* The version of this header, by semver.org: docs/WORKING.md defines the promise of each number. */
#define NELI_VERSION_MAJOR 0
#define NELI_VERSION_MINOR 1
#define NELI_VERSION_PATCH 0
#define NELI_VERSION "0.1.0"

/* The version of the linked library, in the form of NELI_VERSION. This call and the next are in libneli, and not in
 * libneli_c.a. */
const char *neli_version(void);

/* The build: lines that name the commit, the prover, its verdict and the checksum of all that was proved. */
const char *neli_stamp(void);

/* ---- Codes ---- */

enum neli_code {
    NELI_OK = 0,              /* done */
    NELI_END = 0,             /* nothing follows; for a look-up, nothing was found */
    NELI_ITEM = 1,            /* a message, an attribute or an item was returned */
    NELI_WAITS = 2,           /* no item has arrived yet: receive a datagram, pass it in, and read again */
    NELI_KERNEL_ERROR = 3,    /* the kernel answered with an error: its code is in the item */
    NELI_INTERRUPTED = 4,     /* of a verdict: the listed objects changed meanwhile; request them again */
    NELI_OVERRUN = 5,         /* of listening: the socket's buffer ran over (ENOBUFS), so messages may be lost */
    NELI_VIOLATION = 6,       /* an attribute is not as its row says, or JSON asks for what the tables do not have */
    NELI_SHORT = -1,          /* the bytes end before the header, the padding or the number does */
    NELI_LENGTH = -2,         /* a length does not fit: below its header, past the bytes, or past its field */
    NELI_MEMORY = -3,         /* memory ran out; everything is unchanged, unless the call says otherwise */
    NELI_ROOM = -4,           /* the room is too small; nothing was written, or of a text its beginning */
    NELI_STATE = -5,          /* a router, session, dump or tables are closed or open already, or a dump is finished */
    NELI_HANDLE = -6,         /* no such handle exists, or no item was read */
    NELI_IN_USE = -7,         /* the sequence number belongs to a request that is not closed */
    NELI_STRAY = -8,          /* a message arrived with a port or a sequence number that no request has */
    NELI_NO_ACK = -9,         /* an acknowledgement was requested, and something else arrived */
    NELI_UNEXPECTED_ACK = -10,/* an acknowledgement arrived that was not requested */
    NELI_LINK = -11,          /* the link failed, as was passed in */
    NELI_BYTES = -12,         /* a datagram that was passed in is not made of messages to its end */
    NELI_NULL = -13,          /* a pointer is null, or a length is past PTRDIFF_MAX */
    NELI_PLACE = -14,         /* a place is past the bytes, or past the end of its walk */
    NELI_KIND = -15,          /* the message is of another type, or of one whose attributes no table has */
    NELI_TEXT = -16,          /* no zero byte ends the text */
    NELI_TABLE = -17,         /* a line of a table is bad */
    NELI_UNENDED = -18        /* of a verdict: the reads ended before the answer, as those of a dump without MULTI */
};

/* The maximum size of a code's text in bytes, including its zero byte. */
#define NELI_TEXT_SIZE 80

/* ---- Types ---- */

/* The rest of a walk: bytes `place` to `end`, counted from the first of the walked bytes. Over the messages of a
 * datagram of n bytes it begins as {0, n}. */
struct neli_walk {
    size_t place, end;
};

/* A message: its header, and the place of its payload. */
struct neli_message {
    uint32_t length; /* of header and payload, in bytes */
    uint16_t type, flags;
    uint32_t number; /* the sequence number: a reply has that of its request */
    uint32_t port;   /* 0 is the kernel's */
    size_t payload, payload_length;
};

/* The flags of an attribute's type field. */
#define NELI_NESTED 0x8000
#define NELI_NETWORK_ORDER 0x4000

/* A parser of the kernel, by which it reads a request (lib/nlattr.c). */
enum neli_validation {
    NELI_LIBERAL = 0, /* that of older messages */
    NELI_STRICT = 1   /* refuses unknown attributes, numbers of another length, nests without a flag, and a rest too */
};

/* An attribute: its header, and the place of its payload. `type` is `number` and `flags` in one. */
struct neli_attribute {
    uint16_t length; /* of header and payload, in bytes */
    uint16_t type, number, flags;
    size_t payload, payload_length;
};

/* An error, an acknowledgement (an error of code 0) or the end of a dump. */
struct neli_answer {
    int32_t code;         /* 0, or an error number of Linux, negated */
    uint32_t echo_length; /* the header of the request, echoed by an error; zeros for the end of a dump */
    uint16_t echo_type, echo_flags;
    uint32_t echo_number, echo_port;
    struct neli_walk attributes; /* of the extended acknowledgement; empty if there is none */
};

/* Numbers of attributes of an extended acknowledgement: a text, and a place in the request as a u32; from Linux 6.1 on
 * also the number of an attribute that is missing, and the place of the nest that lacks it, each as a u32. */
#define NELI_ANSWER_TEXT 1
#define NELI_ANSWER_OFFSET 2
#define NELI_ANSWER_MISSING 5
#define NELI_ANSWER_MISSING_NEST 6

/* A writing position: the message that was begun last is at `start`, and the next byte goes to `end`. It begins as
 * {0, 0}, or as {n, n} behind n bytes. What is put before a message is begun belongs to a body, as that of
 * neli_host_send, or to a list of attributes: `start` is SIZE_MAX then. */
struct neli_writer {
    size_t start, end;
};

/* A router, private to the library. It begins as NELI_ROUTER_CLOSED, is not copied while it is open, is used by one
 * thread at a time, and is freed by its last owner. */
struct neli_router {
    bool is_open;
    void *state;
};
#define NELI_ROUTER_CLOSED {false, NULL}

/* The handle for messages to multicast groups. */
#define NELI_MULTICAST 0

/* A request that was sent: its number of bytes, and the handle for its replies. */
struct neli_sent {
    size_t length, handle;
};

/* An item that was read: the header of a message. For a kernel's error its type is 2, its flags state what follows in
 * its bytes, and number and port are the request's. */
struct neli_item {
    uint16_t type, flags;
    uint32_t number, port;
    int32_t error; /* the code of an error, an acknowledgement or the end of a dump; 0 elsewhere */
};

/* An item that is lent: a message where the router or the session keeps it. Its payload is all of the bytes, so each
 * call that takes bytes and a message takes these two. */
struct neli_lent {
    struct neli_message message;
    const uint8_t *bytes; /* never null */
    size_t length;
    int32_t error; /* the code of a kernel's error; of a session's loss its errno; 0 elsewhere */
};

/* A verdict on an answer, beside the code that neli_router_verdict or neli_session_verdict returns. */
struct neli_verdict {
    int32_t error; /* the code of the kernel's error, or of the dump that failed, as -19 for ENODEV; of a session also
                    * the errno of a loss; 0 elsewhere */
    uint8_t filtered; /* 1 if the kernel filtered the list (NLM_F_DUMP_FILTERED), else 0 */
};

/* A session, private to the library. It begins as NELI_SESSION_CLOSED, is not copied while it is open, is used by one
 * thread at a time, and is freed by its last owner. */
struct neli_session {
    bool is_open;
    void *state;
};
#define NELI_SESSION_CLOSED {false, NULL}

/* Whose reads these are. */
enum neli_reader {
    NELI_READER_REQUEST = 0,   /* the answer to a request, by its sequence number */
    NELI_READER_MULTICAST = 1, /* what came for groups */
    NELI_READER_UNASKED = 2    /* what came for no group, and answers no request */
};

/* Bytes that a session lends. */
struct neli_bytes {
    const uint8_t *bytes; /* never null */
    size_t length;
};

/* A request as a kernel takes it: the message, the port of the socket that sent it, and what its header asks for, each
 * 1 or 0. Answers go to that port; that in the header may differ, as many clients leave it 0. */
struct neli_request {
    struct neli_message message;
    uint32_t port;
    uint8_t is_handled;            /* the kernel acts on it: NLM_F_REQUEST is set, and the type is 16 or more */
    uint8_t wants_acknowledgement; /* NLM_F_ACK is set */
    uint8_t wants_dump;            /* both bits of NLM_F_DUMP are set, as generic netlink reads them */
    uint8_t wants_routing_dump;    /* as routing netlink reads them: the type is 2 modulo 4, and a bit of them is set */
    uint8_t wants_echo;            /* NLM_F_ECHO is set */
};

/* How the kernel answers a request that it does not refuse. An error in place of the answer ends any. */
enum neli_answering {
    NELI_ANSWERING_DUMP = 0,            /* by messages up to NLMSG_DONE, and never by an acknowledgement */
    NELI_ANSWERING_ACKNOWLEDGEMENT = 1, /* by messages, if any, and then the acknowledgement */
    NELI_ANSWERING_REPLY = 2,           /* by one message, or by several up to NLMSG_DONE */
    NELI_ANSWERING_SILENCE = 3          /* by nothing, or by its notifications (NLM_F_ECHO): no message ends it */
};

/* An answer in several messages, which only the library looks into. It begins as NELI_KERNEL_DUMP_CLOSED, is not copied
 * while it is open, is used by one thread at a time, and is freed by its last owner. */
struct neli_kernel_dump {
    bool is_open;
    void *state;
};
#define NELI_KERNEL_DUMP_CLOSED {false, NULL}

/* Tables of families, which only the library looks into. They begin as NELI_TABLES_CLOSED, are not copied while they
 * are open, are used by one thread at a time, and are freed by their last owner. */
struct neli_tables {
    bool is_open;
    void *state;
};
#define NELI_TABLES_CLOSED {false, NULL}

/* What an item of a walk by name is: a payload of a kind of docs/TABLES.md, in the order of that page, or else. */
enum neli_kind {
    NELI_KIND_NONE = 0, /* bytes: no row says what they are */
    NELI_KIND_FLAG = 1,
    NELI_KIND_U8 = 2,
    NELI_KIND_U16 = 3,
    NELI_KIND_U32 = 4,
    NELI_KIND_U64 = 5,
    NELI_KIND_S8 = 6,
    NELI_KIND_S16 = 7,
    NELI_KIND_S32 = 8,
    NELI_KIND_S64 = 9,
    NELI_KIND_BE16 = 10,
    NELI_KIND_BE32 = 11,
    NELI_KIND_BE64 = 12,
    NELI_KIND_SBE32 = 13,
    NELI_KIND_UINT = 14,
    NELI_KIND_SINT = 15,
    NELI_KIND_TEXT = 16,
    NELI_KIND_ZTEXT = 17,
    NELI_KIND_HARDWARE = 18,
    NELI_KIND_IPV4 = 19,
    NELI_KIND_IPV6 = 20,
    NELI_KIND_IP = 21,
    NELI_KIND_ADDRESS = 22,
    NELI_KIND_SOCKADDR = 23,
    NELI_KIND_UUID = 24,
    NELI_KIND_BITS = 25,
    NELI_KIND_STRUCT = 26,
    NELI_KIND_NEST = 27, /* attributes, which come next, one deeper */
    NELI_KIND_HOPS = 28, /* structures with attributes, each an item, which come next */
    NELI_KIND_CHOICE = 29,
    NELI_KIND_BYTES = 30,
    NELI_KIND_PAD = 31,
    NELI_KIND_HOP = 32,   /* a structure with attributes, which come next */
    NELI_KIND_SHORT = 33, /* bytes: less than the structure that a nest begins with */
    NELI_KIND_DEEP = 34,  /* bytes: a nest in nine others, which is not entered */
    NELI_KIND_REST = 35,  /* bytes behind the attributes of a list, which are none */
    NELI_KIND_FIELD = 36  /* a field of the structure before a message's attributes */
};

/* An item by name: an attribute, a hop, a rest, or a field. */
struct neli_named {
    uint16_t number; /* of an attribute; else 0 */
    uint8_t kind;    /* of enum neli_kind */
    uint8_t depth;   /* 1 in the message's own list, and one more in each nest; 0 of a field */
    size_t payload, payload_length; /* its place in the bytes that the message was read from */
    size_t path, path_length;       /* the place of its path in the texts of its call, and of its value in JSON */
    size_t value, value_length;
};

/* Whether a list of the kernel's objects that a program keeps, as that of the links, is current. */
enum neli_list_state {
    NELI_LIST_STALE = 0,  /* it is to be requested */
    NELI_LIST_READ = 1,   /* it is being read */
    NELI_LIST_CURRENT = 2 /* it was read whole, and nothing was lost since it was requested */
};

/* The same of one list. It begins as zeros, and with a state that is none it is stale. */
struct neli_list {
    uint32_t state;  /* of enum neli_list_state */
    uint32_t number; /* the sequence number of the request that reads it, while it is read */
};

/* ---- The exports ---- */

int32_t neli_c_error_text(int32_t code, uint8_t *out, size_t room, size_t *length);
int32_t neli_c_next_message(const uint8_t *bytes, size_t length, struct neli_walk *walk, struct neli_message *message);
int32_t neli_c_next_messages(const uint8_t *bytes, size_t length, struct neli_walk *walk,
                             struct neli_message *messages, size_t room, size_t *count);
int32_t neli_c_attributes_of(const struct neli_message *message, size_t header_size, struct neli_walk *walk);
int32_t neli_c_next_attribute(const uint8_t *bytes, size_t length, struct neli_walk *walk,
                              struct neli_attribute *attribute);
int32_t neli_c_next_attributes(const uint8_t *bytes, size_t length, struct neli_walk *walk,
                               struct neli_attribute *attributes, size_t room, size_t *count);
int32_t neli_c_find_attribute(const uint8_t *bytes, size_t length, const struct neli_walk *walk, uint16_t number,
                              struct neli_attribute *attribute);
int32_t neli_c_attributes_in(const struct neli_attribute *attribute, struct neli_walk *walk);
int32_t neli_c_get_u8(const uint8_t *bytes, size_t length, size_t place, uint8_t *value);
int32_t neli_c_get_u16(const uint8_t *bytes, size_t length, size_t place, uint16_t *value);
int32_t neli_c_get_u32(const uint8_t *bytes, size_t length, size_t place, uint32_t *value);
int32_t neli_c_get_u64(const uint8_t *bytes, size_t length, size_t place, uint64_t *value);
int32_t neli_c_get_be16(const uint8_t *bytes, size_t length, size_t place, uint16_t *value);
int32_t neli_c_get_be32(const uint8_t *bytes, size_t length, size_t place, uint32_t *value);
int32_t neli_c_get_be64(const uint8_t *bytes, size_t length, size_t place, uint64_t *value);
int32_t neli_c_text_length(const uint8_t *payload, size_t payload_length, size_t *text_length);
int32_t neli_c_get_answer(const uint8_t *bytes, size_t length, const struct neli_message *message,
                          struct neli_answer *answer);
int32_t neli_c_begin_message(uint8_t *out, size_t room, struct neli_writer *writer, uint16_t type, uint16_t flags,
                             uint32_t number, uint32_t port);
int32_t neli_c_put_bytes(uint8_t *out, size_t room, struct neli_writer *writer, const uint8_t *bytes, size_t length);
int32_t neli_c_put_attribute(uint8_t *out, size_t room, struct neli_writer *writer, uint16_t type,
                             const uint8_t *payload, size_t payload_length);
int32_t neli_c_begin_nest(uint8_t *out, size_t room, struct neli_writer *writer, uint16_t type, size_t *nest);
int32_t neli_c_end_nest(uint8_t *out, size_t room, const struct neli_writer *writer, size_t nest);
int32_t neli_c_end_message(uint8_t *out, size_t room, const struct neli_writer *writer);
int32_t neli_c_router_new(struct neli_router *router, uint32_t port);
int32_t neli_c_router_free(struct neli_router *router);
int32_t neli_c_router_set_number(struct neli_router *router, uint32_t number);
int32_t neli_c_router_send(struct neli_router *router, uint16_t type, uint16_t flags, const uint8_t *body,
                           size_t body_length, uint8_t *out, size_t room, struct neli_sent *sent);
int32_t neli_c_router_datagram(struct neli_router *router, const uint8_t *bytes, size_t length,
                               const uint32_t *groups, size_t group_count);
int32_t neli_c_router_fault(struct neli_router *router, int32_t error_number);
int32_t neli_c_router_read(struct neli_router *router, size_t handle, struct neli_item *item);
int32_t neli_c_router_listen(struct neli_router *router, struct neli_item *item);
int32_t neli_c_router_item(struct neli_router *router, uint8_t *out, size_t room, size_t *length);
int32_t neli_c_router_lend(struct neli_router *router, size_t handle, struct neli_lent *lent);
int32_t neli_c_router_lend_items(struct neli_router *router, size_t handle, struct neli_lent *items, size_t item_room,
                                 size_t *count);
int32_t neli_c_router_pass(struct neli_router *router, size_t handle);
int32_t neli_c_router_pass_items(struct neli_router *router, size_t handle, size_t count);
int32_t neli_c_router_verdict(struct neli_router *router, size_t handle, struct neli_verdict *verdict);
int32_t neli_c_router_give_up(struct neli_router *router, size_t handle);
int32_t neli_c_router_close(struct neli_router *router, size_t handle);
int32_t neli_c_session_new(struct neli_session *session, int32_t protocol, uint32_t port, uint8_t keeps_unasked);
int32_t neli_c_session_free(struct neli_session *session);
int32_t neli_c_session_set_number(struct neli_session *session, uint32_t number);
int32_t neli_c_session_send(struct neli_session *session, uint16_t type, uint16_t flags, const uint8_t *body,
                            size_t body_length, uint32_t *number);
int32_t neli_c_session_send_all(struct neli_session *session, const uint8_t *requests, size_t length);
int32_t neli_c_session_send_expecting(struct neli_session *session, uint32_t answering, const uint8_t *requests,
                                      size_t length);
int32_t neli_c_session_take_number(struct neli_session *session, uint32_t *number);
int32_t neli_c_session_next_outgoing(struct neli_session *session);
int32_t neli_c_session_outgoing(struct neli_session *session, struct neli_bytes *bytes);
int32_t neli_c_session_sent(struct neli_session *session);
int32_t neli_c_session_not_sent(struct neli_session *session, int32_t error_number);
int32_t neli_c_session_receive(struct neli_session *session, const uint8_t *bytes, size_t length, uint32_t group,
                               uint8_t is_joined, size_t *taken);
int32_t neli_c_session_fault(struct neli_session *session, int32_t error_number);
int32_t neli_c_session_quiet(struct neli_session *session);
int32_t neli_c_session_ready(struct neli_session *session, uint32_t *number);
int32_t neli_c_session_is_ready(struct neli_session *session, uint32_t reader, uint32_t number);
int32_t neli_c_session_next(struct neli_session *session, uint32_t reader, uint32_t number, struct neli_lent *lent);
int32_t neli_c_session_pass(struct neli_session *session, uint32_t reader, uint32_t number);
int32_t neli_c_session_verdict(struct neli_session *session, uint32_t number, struct neli_verdict *verdict);
int32_t neli_c_session_close(struct neli_session *session, uint32_t number);
int32_t neli_c_session_close_multicast(struct neli_session *session);
int32_t neli_c_session_is_in_use(struct neli_session *session, uint32_t number);
int32_t neli_c_list_requested(struct neli_list *list, uint32_t number);
int32_t neli_c_list_ended(struct neli_list *list, uint32_t number, int32_t code);
int32_t neli_c_list_lost(struct neli_list *list);
int32_t neli_c_is_passing(int32_t code, int32_t error);
int32_t neli_c_next_request(const uint8_t *bytes, size_t length, struct neli_walk *walk, uint32_t port,
                            struct neli_request *request);
uint32_t neli_c_answering(int32_t protocol, uint16_t type, uint16_t flags, size_t body_length);
int32_t neli_c_ends_answer(uint32_t answering, uint16_t type, uint16_t flags, int32_t code);
int32_t neli_c_kernel_ack(const struct neli_request *request, const uint8_t *ext_ack, size_t ext_ack_length,
                          uint8_t *out, size_t room, size_t *length);
int32_t neli_c_kernel_capped_error(const struct neli_request *request, int32_t code, const uint8_t *ext_ack,
                                   size_t ext_ack_length, uint8_t *out, size_t room, size_t *length);
int32_t neli_c_kernel_error(const uint8_t *sent, size_t sent_length, const struct neli_request *request, int32_t code,
                            const uint8_t *ext_ack, size_t ext_ack_length, uint8_t *out, size_t room, size_t *length);
int32_t neli_c_kernel_reply(const struct neli_request *request, uint16_t type, uint16_t flags, const uint8_t *body,
                            size_t body_length, uint8_t *out, size_t room, size_t *length);
int32_t neli_c_kernel_notification(uint16_t type, uint16_t flags, uint32_t number, uint32_t port, const uint8_t *body,
                                   size_t body_length, uint8_t *out, size_t room, size_t *length);
int32_t neli_c_kernel_dump_new(struct neli_kernel_dump *dump, const struct neli_request *request, size_t limit);
int32_t neli_c_kernel_dump_free(struct neli_kernel_dump *dump);
int32_t neli_c_kernel_dump_push(struct neli_kernel_dump *dump, uint16_t type, uint16_t flags, const uint8_t *body,
                                size_t body_length);
int32_t neli_c_kernel_dump_push_reply(struct neli_kernel_dump *dump, uint16_t type, uint16_t flags,
                                      const uint8_t *body, size_t body_length);
int32_t neli_c_kernel_dump_begin_datagram(struct neli_kernel_dump *dump);
int32_t neli_c_kernel_dump_finish(struct neli_kernel_dump *dump, uint16_t flags, int32_t code, const uint8_t *ext_ack,
                                  size_t ext_ack_length);
int32_t neli_c_kernel_dump_next(struct neli_kernel_dump *dump, uint8_t *out, size_t room, size_t *length);
int32_t neli_c_tables_new(struct neli_tables *tables);
int32_t neli_c_tables_built_in(struct neli_tables *tables);
int32_t neli_c_tables_free(struct neli_tables *tables);
int32_t neli_c_tables_add(struct neli_tables *tables, const uint8_t *text, size_t text_length, size_t *line,
                          uint8_t *out, size_t room, size_t *length);
int32_t neli_c_tables_add_built_in(struct neli_tables *tables, const uint8_t *name, size_t name_length);
int32_t neli_c_tables_learn(struct neli_tables *tables, uint16_t id, const uint8_t *name, size_t name_length);
int32_t neli_c_tables_learn_from(struct neli_tables *tables, uint16_t protocol, const uint8_t *bytes, size_t length,
                                 const struct neli_message *message);
int32_t neli_c_message_text(struct neli_tables *tables, uint16_t protocol, const uint8_t *bytes, size_t length,
                            const struct neli_message *message, uint8_t *out, size_t room, size_t *size);
int32_t neli_c_message_json(struct neli_tables *tables, uint16_t protocol, const uint8_t *bytes, size_t length,
                            const struct neli_message *message, uint8_t *out, size_t room, size_t *size);
int32_t neli_c_datagram_text(struct neli_tables *tables, uint16_t protocol, const uint8_t *bytes, size_t length,
                             uint8_t *out, size_t room, size_t *size);
int32_t neli_c_datagram_json(struct neli_tables *tables, uint16_t protocol, const uint8_t *bytes, size_t length,
                             uint8_t *out, size_t room, size_t *size);
int32_t neli_c_named_items(struct neli_tables *tables, uint16_t protocol, const uint8_t *bytes, size_t length,
                           const struct neli_message *message, struct neli_named *items, size_t item_room,
                           size_t *count, uint8_t *out, size_t room, size_t *size);
int32_t neli_c_named_field(struct neli_tables *tables, uint16_t protocol, const uint8_t *bytes, size_t length,
                           const struct neli_message *message, size_t index, struct neli_named *named, uint8_t *out,
                           size_t room, size_t *size);
int32_t neli_c_number_of(struct neli_tables *tables, const uint8_t *family, size_t family_length, const uint8_t *list,
                         size_t list_length, const uint8_t *name, size_t name_length, uint64_t *number);
int32_t neli_c_name_of(struct neli_tables *tables, const uint8_t *family, size_t family_length, const uint8_t *list,
                       size_t list_length, uint64_t number, uint8_t *out, size_t room, size_t *size);
int32_t neli_c_message_name(struct neli_tables *tables, uint16_t protocol, const uint8_t *bytes, size_t length,
                            const struct neli_message *message, uint8_t *out, size_t room, size_t *size);
int32_t neli_c_errno_name(int32_t error, uint8_t *out, size_t room, size_t *text_length);
int32_t neli_c_check(struct neli_tables *tables, uint16_t protocol, const uint8_t *bytes, size_t length,
                     const struct neli_message *message, uint8_t *out, size_t room, size_t *size);
int32_t neli_c_check_as(struct neli_tables *tables, int32_t validation, uint16_t protocol, const uint8_t *bytes,
                        size_t length, const struct neli_message *message, uint8_t *out, size_t room, size_t *size);
int32_t neli_c_path_at(struct neli_tables *tables, uint16_t protocol, const uint8_t *bytes, size_t length,
                       const struct neli_message *message, size_t offset, uint8_t *out, size_t room, size_t *size);
int32_t neli_c_refusal_text(struct neli_tables *tables, uint16_t protocol, const uint8_t *bytes, size_t length,
                            const struct neli_message *message, int32_t code, const uint8_t *text, size_t text_length,
                            size_t offset, uint8_t *out, size_t room, size_t *size);
int32_t neli_c_diagnosis(struct neli_tables *tables, uint16_t protocol, const uint8_t *bytes, size_t length,
                         const struct neli_message *message, int32_t code, const uint8_t *ext_ack,
                         size_t ext_ack_length, uint8_t *out, size_t room, size_t *size);
int32_t neli_c_write_json(struct neli_tables *tables, uint16_t protocol, const uint8_t *json, size_t json_length,
                          uint8_t *out, size_t room, size_t *size);

/* ---- Pointers and lengths ---- */

/* Whether bytes in memory can have this length, at a pointer that is not null; or it is 0. */
static inline bool neli_is_slice(const void *at, size_t length) {
    return at != NULL ? length <= PTRDIFF_MAX : length == 0;
}

/* The pointer, or one that is not null. */
static inline const uint8_t *neli_read_at(const uint8_t *at) {
    static const uint8_t nothing[4] = {0};
    return at != NULL ? at : nothing;
}

static inline uint8_t *neli_write_at(uint8_t *at) {
    static uint8_t nothing[4];
    return at != NULL ? at : nothing;
}

/* ---- Codes in words ---- */

/* Writes the text of a code, with a zero byte; NELI_ROOM if it is longer than the room. NELI_TEXT_SIZE bytes suffice. A
 * number that is no code has a text too. NELI_NULL if `text` is null, whatever the room. */
static inline int32_t neli_error_text(int32_t code, char *text, size_t room) {
    size_t length = 0;
    if (text == NULL || room > PTRDIFF_MAX) return NELI_NULL;
    return neli_c_error_text(code, (uint8_t *)text, room, &length);
}

/* Writes the name of an error number of Linux, above or below 0, as EINVAL of 22 and of -22, with a zero byte:
 * NELI_ITEM, or NELI_END if the number has no name; NELI_ROOM if it is longer than the room. NELI_TEXT_SIZE bytes
 * suffice. NELI_NULL if `name` is null, whatever the room. Its meaning is strerror(3)'s. */
static inline int32_t neli_errno_name(int32_t error, char *name, size_t room) {
    size_t length = 0;
    if (name == NULL || room > PTRDIFF_MAX) return NELI_NULL;
    return neli_c_errno_name(error, (uint8_t *)name, room, &length);
}

/* ---- Reading by slices: no memory is taken ---- */

/* Stores the next message of a walk, which moves past it and its padding: NELI_ITEM, or NELI_END at the end. NELI_PLACE
 * if the walk's places are not in order or past the bytes, NELI_SHORT if the header or the padding is cut off,
 * NELI_LENGTH if the stated length is below 16 or past the end. */
static inline int32_t neli_next_message(const uint8_t *bytes, size_t length, struct neli_walk *walk,
                                        struct neli_message *message) {
    if (!neli_is_slice(bytes, length) || walk == NULL || message == NULL) return NELI_NULL;
    return neli_c_next_message(neli_read_at(bytes), length, walk, message);
}

/* Stores the next messages of a walk, which moves past them: as many as there is room for, or as come before its end or
 * a fault. NELI_ITEM, and `count` is their number; without a message `count` is 0, and the code is that of
 * `neli_next_message`, so the call after the last message returns the end or the fault. NELI_ROOM if there is room for
 * none: `room` counts messages. The room after the stored ones is unchanged. */
static inline int32_t neli_next_messages(const uint8_t *bytes, size_t length, struct neli_walk *walk,
                                         struct neli_message *messages, size_t room, size_t *count) {
    static struct neli_message none[1];
    if (!neli_is_slice(bytes, length) || walk == NULL || count == NULL) return NELI_NULL;
    if (room > PTRDIFF_MAX / sizeof *messages || !neli_is_slice(messages, room)) return NELI_NULL;
    return neli_c_next_messages(neli_read_at(bytes), length, walk, messages != NULL ? messages : none, room, count);
}

/* Makes a walk over the attributes of a message, after a body's header of this size in bytes (16 for a link, 8 for an
 * address, 12 for a route, 4 for generic netlink), rounded up to four. NELI_PLACE if the payload ends past PTRDIFF_MAX,
 * NELI_SHORT if it is shorter than the header. */
static inline int32_t neli_attributes_of(const struct neli_message *message, size_t header_size,
                                         struct neli_walk *walk) {
    if (message == NULL || walk == NULL) return NELI_NULL;
    return neli_c_attributes_of(message, header_size, walk);
}

/* Stores the next attribute of a walk, which moves past it; as `neli_next_message`, with 4 as the least length. */
static inline int32_t neli_next_attribute(const uint8_t *bytes, size_t length, struct neli_walk *walk,
                                          struct neli_attribute *attribute) {
    if (!neli_is_slice(bytes, length) || walk == NULL || attribute == NULL) return NELI_NULL;
    return neli_c_next_attribute(neli_read_at(bytes), length, walk, attribute);
}

/* Stores the next attributes of a walk, which moves past them; as `neli_next_messages`. */
static inline int32_t neli_next_attributes(const uint8_t *bytes, size_t length, struct neli_walk *walk,
                                           struct neli_attribute *attributes, size_t room, size_t *count) {
    static struct neli_attribute none[1];
    if (!neli_is_slice(bytes, length) || walk == NULL || count == NULL) return NELI_NULL;
    if (room > PTRDIFF_MAX / sizeof *attributes || !neli_is_slice(attributes, room)) return NELI_NULL;
    return neli_c_next_attributes(neli_read_at(bytes), length, walk, attributes != NULL ? attributes : none, room,
                                  count);
}

/* Stores the first attribute with this number in the rest of a walk: NELI_ITEM, or NELI_END if there is none. A fault
 * before it is returned as by `neli_next_attribute`. The walk is unchanged. */
static inline int32_t neli_find_attribute(const uint8_t *bytes, size_t length, const struct neli_walk *walk,
                                          uint16_t number, struct neli_attribute *attribute) {
    if (!neli_is_slice(bytes, length) || walk == NULL || attribute == NULL) return NELI_NULL;
    return neli_c_find_attribute(neli_read_at(bytes), length, walk, number, attribute);
}

/* Makes a walk over the attributes in an attribute's payload. NELI_PLACE if the payload ends past PTRDIFF_MAX. */
static inline int32_t neli_attributes_in(const struct neli_attribute *attribute, struct neli_walk *walk) {
    if (attribute == NULL || walk == NULL) return NELI_NULL;
    return neli_c_attributes_in(attribute, walk);
}

/* Reads the number at a place, its lowest byte first, as kernel and machine have it, or (`be`) its highest first, in
 * network order; NELI_SHORT if the bytes end before it does. For an attribute a: `neli_get_u32(bytes + a.payload,
 * a.payload_length, 0, &value)`. */
static inline int32_t neli_get_u8(const uint8_t *bytes, size_t length, size_t place, uint8_t *value) {
    if (!neli_is_slice(bytes, length) || value == NULL) return NELI_NULL;
    return neli_c_get_u8(neli_read_at(bytes), length, place, value);
}

static inline int32_t neli_get_u16(const uint8_t *bytes, size_t length, size_t place, uint16_t *value) {
    if (!neli_is_slice(bytes, length) || value == NULL) return NELI_NULL;
    return neli_c_get_u16(neli_read_at(bytes), length, place, value);
}

static inline int32_t neli_get_u32(const uint8_t *bytes, size_t length, size_t place, uint32_t *value) {
    if (!neli_is_slice(bytes, length) || value == NULL) return NELI_NULL;
    return neli_c_get_u32(neli_read_at(bytes), length, place, value);
}

static inline int32_t neli_get_u64(const uint8_t *bytes, size_t length, size_t place, uint64_t *value) {
    if (!neli_is_slice(bytes, length) || value == NULL) return NELI_NULL;
    return neli_c_get_u64(neli_read_at(bytes), length, place, value);
}

static inline int32_t neli_get_be16(const uint8_t *bytes, size_t length, size_t place, uint16_t *value) {
    if (!neli_is_slice(bytes, length) || value == NULL) return NELI_NULL;
    return neli_c_get_be16(neli_read_at(bytes), length, place, value);
}

static inline int32_t neli_get_be32(const uint8_t *bytes, size_t length, size_t place, uint32_t *value) {
    if (!neli_is_slice(bytes, length) || value == NULL) return NELI_NULL;
    return neli_c_get_be32(neli_read_at(bytes), length, place, value);
}

static inline int32_t neli_get_be64(const uint8_t *bytes, size_t length, size_t place, uint64_t *value) {
    if (!neli_is_slice(bytes, length) || value == NULL) return NELI_NULL;
    return neli_c_get_be64(neli_read_at(bytes), length, place, value);
}

/* Measures the text at the front of a payload, up to its first zero byte, in bytes: then the payload's first byte is
 * the start of a string of C. NELI_TEXT if no byte is zero. */
static inline int32_t neli_text_length(const uint8_t *payload, size_t payload_length, size_t *text_length) {
    if (!neli_is_slice(payload, payload_length) || text_length == NULL) return NELI_NULL;
    return neli_c_text_length(neli_read_at(payload), payload_length, text_length);
}

/* Stores the fields of a message of type 2 (an error or an acknowledgement) or of type 3 with the flag MULTI (2) and a
 * payload (the end of a dump); NELI_PLACE if its payload is past the bytes, NELI_KIND for another message, NELI_SHORT
 * if the payload is too short for it. NELI_LENGTH if an error without the flag NLM_F_CAPPED (0x100) echoes a request
 * whose length is below 16 or exceeds the payload; of an acknowledgement, and with that flag, only the request's header
 * is echoed, and its length may be any. `attributes` has the text and the offset. */
static inline int32_t neli_get_answer(const uint8_t *bytes, size_t length, const struct neli_message *message,
                                      struct neli_answer *answer) {
    if (!neli_is_slice(bytes, length) || message == NULL || answer == NULL) return NELI_NULL;
    return neli_c_get_answer(neli_read_at(bytes), length, message, answer);
}

/* ---- Writing into the caller's bytes ---- */

/* Calls that begin or append return NELI_ROOM if their bytes do not fit between the writer's end and that of `out`. A
 * refusal writes nothing, and leaves the writer unchanged. `neli_end_message` ends a message, after the ends of its
 * nests. */

/* Begins a message at the writer's end, which moves past the header. `neli_end_message` sets its length. */
static inline int32_t neli_begin_message(uint8_t *out, size_t room, struct neli_writer *writer, uint16_t type,
                                         uint16_t flags, uint32_t number, uint32_t port) {
    if (!neli_is_slice(out, room) || writer == NULL) return NELI_NULL;
    return neli_c_begin_message(neli_write_at(out), room, writer, type, flags, number, port);
}

/* Appends bytes, as a body's header, and zeros up to a multiple of four. */
static inline int32_t neli_put_bytes(uint8_t *out, size_t room, struct neli_writer *writer, const void *bytes,
                                     size_t length) {
    if (!neli_is_slice(out, room) || writer == NULL || !neli_is_slice(bytes, length)) return NELI_NULL;
    return neli_c_put_bytes(neli_write_at(out), room, writer, neli_read_at((const uint8_t *)bytes), length);
}

/* Appends an attribute, and zeros up to a multiple of four; NELI_LENGTH if the payload has more than 65531 bytes. */
static inline int32_t neli_put_attribute(uint8_t *out, size_t room, struct neli_writer *writer, uint16_t type,
                                         const void *payload, size_t payload_length) {
    if (!neli_is_slice(out, room) || writer == NULL || !neli_is_slice(payload, payload_length)) return NELI_NULL;
    return neli_c_put_attribute(neli_write_at(out), room, writer, type, neli_read_at((const uint8_t *)payload),
                                payload_length);
}

/* Appends an attribute whose payload is a number, its lowest byte first, as kernel and machine have it, or (`be`) its
 * highest first, in network order. */
static inline int32_t neli_put_u8(uint8_t *out, size_t room, struct neli_writer *writer, uint16_t type,
                                  uint8_t value) {
    return neli_put_attribute(out, room, writer, type, &value, sizeof value);
}

static inline int32_t neli_put_u16(uint8_t *out, size_t room, struct neli_writer *writer, uint16_t type,
                                   uint16_t value) {
    return neli_put_attribute(out, room, writer, type, &value, sizeof value);
}

static inline int32_t neli_put_u32(uint8_t *out, size_t room, struct neli_writer *writer, uint16_t type,
                                   uint32_t value) {
    return neli_put_attribute(out, room, writer, type, &value, sizeof value);
}

static inline int32_t neli_put_u64(uint8_t *out, size_t room, struct neli_writer *writer, uint16_t type,
                                   uint64_t value) {
    return neli_put_attribute(out, room, writer, type, &value, sizeof value);
}

static inline int32_t neli_put_be16(uint8_t *out, size_t room, struct neli_writer *writer, uint16_t type,
                                    uint16_t value) {
    const uint8_t bytes[2] = {(uint8_t)(value >> 8), (uint8_t)value};
    return neli_put_attribute(out, room, writer, type, bytes, sizeof bytes);
}

static inline int32_t neli_put_be32(uint8_t *out, size_t room, struct neli_writer *writer, uint16_t type,
                                    uint32_t value) {
    uint8_t bytes[4];
    for (int i = 0; i < 4; i++) bytes[i] = (uint8_t)(value >> (24 - 8 * i));
    return neli_put_attribute(out, room, writer, type, bytes, sizeof bytes);
}

static inline int32_t neli_put_be64(uint8_t *out, size_t room, struct neli_writer *writer, uint16_t type,
                                    uint64_t value) {
    uint8_t bytes[8];
    for (int i = 0; i < 8; i++) bytes[i] = (uint8_t)(value >> (56 - 8 * i));
    return neli_put_attribute(out, room, writer, type, bytes, sizeof bytes);
}

/* Appends an attribute that is a text, with its zero byte. */
static inline int32_t neli_put_text(uint8_t *out, size_t room, struct neli_writer *writer, uint16_t type,
                                    const char *text) {
    return text != NULL ? neli_put_attribute(out, room, writer, type, text, strlen(text) + 1) : NELI_NULL;
}

/* Begins an attribute that lists attributes, and sets its flag NELI_NESTED; `nest` is its place. */
static inline int32_t neli_begin_nest(uint8_t *out, size_t room, struct neli_writer *writer, uint16_t type,
                                      size_t *nest) {
    if (!neli_is_slice(out, room) || writer == NULL || nest == NULL) return NELI_NULL;
    return neli_c_begin_nest(neli_write_at(out), room, writer, type, nest);
}

/* Sets the length of a nest to the bytes written since it was begun; NELI_LENGTH if that exceeds 65535 bytes,
 * NELI_PLACE if no nest of the message that was begun last can lie there, or of the body if none was begun. */
static inline int32_t neli_end_nest(uint8_t *out, size_t room, const struct neli_writer *writer, size_t nest) {
    if (!neli_is_slice(out, room) || writer == NULL) return NELI_NULL;
    return neli_c_end_nest(neli_write_at(out), room, writer, nest);
}

/* Sets the length of the message that was begun last; NELI_LENGTH if that exceeds 32 bits, NELI_PLACE if no message can
 * lie there. */
static inline int32_t neli_end_message(uint8_t *out, size_t room, const struct neli_writer *writer) {
    if (!neli_is_slice(out, room) || writer == NULL) return NELI_NULL;
    return neli_c_end_message(neli_write_at(out), room, writer);
}

/* ---- The router ---- */

/* All but the first two return NELI_STATE if the router is closed. Those that open it, send, take in, read, listen or
 * copy an item return NELI_MEMORY if memory runs out, which leaves the router unchanged; the same call can be
 * repeated. */

/* Opens a router for the port of the caller's socket; NELI_STATE if it is open, and it stays so. */
static inline int32_t neli_router_new(struct neli_router *router, uint32_t port) {
    if (router == NULL) return NELI_NULL;
    return neli_c_router_new(router, port);
}

/* Frees a router's memory, and closes it. Does nothing to a closed one. */
static inline int32_t neli_router_free(struct neli_router *router) {
    if (router == NULL) return NELI_NULL;
    return neli_c_router_free(router);
}

/* Sets the sequence number of the next request. The first is 0, and each request takes the next one. */
static inline int32_t neli_router_set_number(struct neli_router *router, uint32_t number) {
    if (router == NULL) return NELI_NULL;
    return neli_c_router_set_number(router, number);
}

/* Writes a request of this type with these flags and NLM_F_REQUEST, whose payload is the body, as bytes to send; and
 * the handle for its replies. NELI_LENGTH if the length exceeds 32 bits; NELI_ROOM, and then `sent->length` is the
 * needed number of bytes; NELI_IN_USE if the next number belongs to a request that is not closed. */
static inline int32_t neli_router_send(struct neli_router *router, uint16_t type, uint16_t flags, const void *body,
                                       size_t body_length, uint8_t *out, size_t room, struct neli_sent *sent) {
    if (router == NULL || !neli_is_slice(body, body_length) || !neli_is_slice(out, room) || sent == NULL)
        return NELI_NULL;
    return neli_c_router_send(router, type, flags, neli_read_at((const uint8_t *)body), body_length,
                              neli_write_at(out), room, sent);
}

/* Takes in a datagram that arrived for these groups; none, or 0, if it arrived only for the router's port. It is
 * copied. */
static inline int32_t neli_router_datagram(struct neli_router *router, const uint8_t *bytes, size_t length,
                                           const uint32_t *groups, size_t group_count) {
    static const uint32_t none[1] = {0};
    if (router == NULL || !neli_is_slice(bytes, length)) return NELI_NULL;
    if (group_count > PTRDIFF_MAX / sizeof *groups || !neli_is_slice(groups, group_count)) return NELI_NULL;
    return neli_c_router_datagram(router, neli_read_at(bytes), length, groups != NULL ? groups : none, group_count);
}

/* Takes in a fault of the link, by its number in errno.h: each open request gets NELI_LINK, and listeners get it too,
 * ENOBUFS as NELI_OVERRUN. EAGAIN delivers nothing. */
static inline int32_t neli_router_fault(struct neli_router *router, int32_t error_number) {
    if (router == NULL) return NELI_NULL;
    return neli_c_router_fault(router, error_number);
}

/* Reads the next item of a handle, that of a request or NELI_MULTICAST: NELI_ITEM, NELI_KERNEL_ERROR, NELI_WAITS, or
 * NELI_END after the last. An error in an item's place is returned below 0, and counts as read: NELI_STRAY,
 * NELI_NO_ACK, NELI_UNEXPECTED_ACK, NELI_LINK, or NELI_SHORT, NELI_LENGTH, NELI_BYTES for a message that cannot be
 * read. It is the handle's last item, as NELI_KERNEL_ERROR is. `item` is written at NELI_ITEM and NELI_KERNEL_ERROR.
 * NELI_HANDLE if the handle is not open. */
static inline int32_t neli_router_read(struct neli_router *router, size_t handle, struct neli_item *item) {
    if (router == NULL || item == NULL) return NELI_NULL;
    return neli_c_router_read(router, handle, item);
}

/* Reads the next message for groups, for a listener that continues after any item: beside reads of NELI_MULTICAST,
 * whose handle ends at an error message and at one that cannot be read.
 *   NELI_ITEM           a message, which `item` shows, as neli_router_read does; an error message is one as well
 *   NELI_OVERRUN        the socket's buffer ran over since the last call (ENOBUFS was passed in)
 *   NELI_LINK           the link had another fault since the last call
 *   NELI_WAITS          no message has arrived yet
 *   NELI_SHORT, NELI_LENGTH, NELI_BYTES   a message that cannot be read; it counts as read
 *   NELI_HANDLE         the handle of NELI_MULTICAST is closed
 * At NELI_OVERRUN and NELI_LINK messages may be lost. Each is reported once, before the messages that wait, and a later
 * fault does not replace an overrun. `item` is written at NELI_ITEM. */
static inline int32_t neli_router_listen(struct neli_router *router, struct neli_item *item) {
    if (router == NULL || item == NULL) return NELI_NULL;
    return neli_c_router_listen(router, item);
}

/* Copies the bytes of the item that was read last, of whatever handle: at NELI_ITEM the message, at NELI_KERNEL_ERROR
 * an error message; the calls above walk both. At NELI_ROOM `length` is the needed number of bytes. The item stays,
 * also over NELI_END and NELI_WAITS. NELI_HANDLE if nothing was read, or an item without bytes. */
static inline int32_t neli_router_item(struct neli_router *router, uint8_t *out, size_t room, size_t *length) {
    if (router == NULL || !neli_is_slice(out, room) || length == NULL) return NELI_NULL;
    return neli_c_router_item(router, neli_write_at(out), room, length);
}

/* Lends the next item of a handle where the router keeps it: no byte is copied, and no memory is taken. It returns what
 * neli_router_read does, but never NELI_MEMORY. The item stays the next one until neli_router_pass, and `lent` with its
 * bytes until the next call of this router. At NELI_KERNEL_ERROR the message is the error, as neli_get_answer reads it;
 * at any other code but NELI_ITEM there are no bytes. What neli_router_item copies stays as it was. */
static inline int32_t neli_router_lend(struct neli_router *router, size_t handle, struct neli_lent *lent) {
    if (router == NULL || lent == NULL) return NELI_NULL;
    lent->bytes = neli_read_at(NULL);
    lent->length = 0;
    return neli_c_router_lend(router, handle, lent);
}

/* Lends the messages that come next for a handle, in order, as many as there is room for: NELI_ITEM, and `count` is
 * their number. Each is the one that neli_router_lend lends once those before it are passed. They stay the next ones
 * until neli_router_pass_items, and what is lent until the next call of this router. It stops before what is no
 * message. Where that comes first, as an error, the end or a wait, `count` is 0, and the call returns what
 * neli_router_lend does, which stores into the first place: at NELI_KERNEL_ERROR the error. NELI_ROOM if there is room
 * for none; `count` is 0 at NELI_ROOM and NELI_STATE too. No memory is taken. The items past those that are stored have
 * no bytes. */
static inline int32_t neli_router_lend_items(struct neli_router *router, size_t handle, struct neli_lent *items,
                                             size_t item_room, size_t *count) {
    static struct neli_lent none[1];
    if (router == NULL || count == NULL) return NELI_NULL;
    if (item_room > PTRDIFF_MAX / sizeof *items || !neli_is_slice(items, item_room)) return NELI_NULL;
    for (size_t i = 0; i < item_room; i++) {
        items[i].bytes = neli_read_at(NULL);
        items[i].length = 0;
    }
    return neli_c_router_lend_items(router, handle, items != NULL ? items : none, item_room, count);
}

/* Goes on to a handle's next item: the handle, what waits and the verdict change as by neli_router_read, so both kinds
 * of reads may take turns. Where none waits nothing changes. It takes no memory. NELI_HANDLE if the handle is not
 * open. */
static inline int32_t neli_router_pass(struct neli_router *router, size_t handle) {
    if (router == NULL) return NELI_NULL;
    return neli_c_router_pass(router, handle);
}

/* Goes on past so many items of a handle, or past all that wait: as so many calls of neli_router_pass. NELI_HANDLE if
 * the handle is not open. */
static inline int32_t neli_router_pass_items(struct neli_router *router, size_t handle, size_t count) {
    if (router == NULL) return NELI_NULL;
    return neli_c_router_pass_items(router, handle, count);
}

/* Reports the verdict on the answer to a handle's request, by the items read from it: whether it is complete.
 *   NELI_WAITS          it has not ended
 *   NELI_OK             it has ended well, and the reads returned all of it
 *   NELI_INTERRUPTED    a message of it, its end included, is marked with NLM_F_DUMP_INTR: the listed objects changed
 *                       meanwhile, so entries may be missing or repeated; returned as soon as that message is read
 *   NELI_KERNEL_ERROR   the kernel answered with an error, or ended a dump with one: the code is in `verdict`
 *   NELI_UNENDED        it has ended, but the kernel goes on: the messages of a dump lack NLM_F_MULTI
 *   NELI_LINK, NELI_BYTES, NELI_STRAY, NELI_NO_ACK, NELI_UNEXPECTED_ACK   any other end
 *   NELI_HANDLE         the handle is not open, and then `verdict` is unchanged; or its number is not
 * All but NELI_WAITS are final. That of NELI_MULTICAST is NELI_WAITS. The router is unchanged. */
static inline int32_t neli_router_verdict(struct neli_router *router, size_t handle, struct neli_verdict *verdict) {
    if (router == NULL || verdict == NULL) return NELI_NULL;
    return neli_c_router_verdict(router, handle, verdict);
}

/* Gives a handle up before its answer has ended: its sequence number stays in use until the last message of the answer
 * has arrived, and nothing that waits or still arrives for it is kept. So this is no stray, which would end every other
 * request. The next handle that is opened gets its number, as after neli_router_close. NELI_HANDLE if it is not open;
 * at NELI_MEMORY it is closed, as by neli_router_close. NELI_MULTICAST is closed. */
static inline int32_t neli_router_give_up(struct neli_router *router, size_t handle) {
    if (router == NULL) return NELI_NULL;
    return neli_c_router_give_up(router, handle);
}

/* Closes a handle: its deliveries are removed, and any message that still arrives for it is a stray, which ends every
 * other request: use neli_router_give_up for a handle whose answer has not ended. NELI_HANDLE if it is not open. The
 * next handle that is opened gets its number, except that of NELI_MULTICAST, which is not opened again. */
static inline int32_t neli_router_close(struct neli_router *router, size_t handle) {
    if (router == NULL) return NELI_NULL;
    return neli_c_router_close(router, handle);
}

/* ---- The session ---- */

/* What a client of the kernel needs beside the bytes of its messages, without a socket: it queues requests and lends
 * them as they may go out, takes in what comes, and lends each reader its next item. A message goes to the request that
 * it answers, to multicast, or to the unasked, and a loss to all who wait: docs/SESSION.md. It shares nothing with a
 * router. Where memory runs out a call returns NELI_MEMORY, and nothing is changed, but by neli_session_receive.
 *
 * All but the first two return NELI_STATE if the session is closed. What is lent stays until the next call of this
 * session. */

/* Opens a session for the caller's socket, of this protocol (NETLINK_ROUTE is 0) and with this port; what answers no
 * request is kept if `keeps_unasked`. NELI_STATE if it is open, and it stays so. */
static inline int32_t neli_session_new(struct neli_session *session, int32_t protocol, uint32_t port,
                                       bool keeps_unasked) {
    if (session == NULL) return NELI_NULL;
    return neli_c_session_new(session, protocol, port, keeps_unasked ? 1 : 0);
}

/* Frees a session's memory, and closes it. Does nothing to a closed one. */
static inline int32_t neli_session_free(struct neli_session *session) {
    if (session == NULL) return NELI_NULL;
    return neli_c_session_free(session);
}

/* Sets the sequence number to try first for the next request, at first 0. */
static inline int32_t neli_session_set_number(struct neli_session *session, uint32_t number) {
    if (session == NULL) return NELI_NULL;
    return neli_c_session_set_number(session, number);
}

/* Queues a request of this type with these flags and NLM_F_REQUEST, whose payload is the body; `number` is its sequence
 * number, the next that is free. NELI_LENGTH if the length exceeds 32 bits; NELI_IN_USE if no number is free. */
static inline int32_t neli_session_send(struct neli_session *session, uint16_t type, uint16_t flags, const void *body,
                                        size_t body_length, uint32_t *number) {
    if (session == NULL || !neli_is_slice(body, body_length) || number == NULL) return NELI_NULL;
    return neli_c_session_send(session, type, flags, neli_read_at((const uint8_t *)body), body_length, number);
}

/* Queues requests as one datagram: whole messages, each with a sequence number of its own, answered as neli_answering
 * says of each. NELI_SHORT if the bytes are not one or more whole messages; NELI_KIND if several are answered by dumps,
 * of which the kernel runs one at a time; NELI_IN_USE if a number is in use, or several of them have it. */
static inline int32_t neli_session_send_all(struct neli_session *session, const uint8_t *requests, size_t length) {
    if (session == NULL || !neli_is_slice(requests, length)) return NELI_NULL;
    return neli_c_session_send_all(session, neli_read_at(requests), length);
}

/* The same of requests that are all answered so, by a number of enum neli_answering: those of a protocol whose rules
 * the caller knows. NELI_KIND also if it is none of them. */
static inline int32_t neli_session_send_expecting(struct neli_session *session, uint32_t answering,
                                                  const uint8_t *requests, size_t length) {
    if (session == NULL || !neli_is_slice(requests, length)) return NELI_NULL;
    return neli_c_session_send_expecting(session, answering, neli_read_at(requests), length);
}

/* Takes a sequence number that is not in use, for a message that the caller writes; NELI_IN_USE if none is free. */
static inline int32_t neli_session_take_number(struct neli_session *session, uint32_t *number) {
    if (session == NULL || number == NULL) return NELI_NULL;
    return neli_c_session_take_number(session, number);
}

/* Lends the datagram to send next: NELI_ITEM, or NELI_WAITS if none may go out now, and then there are no bytes. It is
 * the one that was lent before, until neli_session_sent or neli_session_not_sent; or else the first that waits. While a
 * dump runs none with a dump goes out, and after the fault ENOBUFS none at all until neli_session_quiet. The answers of
 * its requests may come from now on. No memory is taken. */
static inline int32_t neli_session_outgoing(struct neli_session *session, const uint8_t **bytes, size_t *length) {
    struct neli_bytes lent;
    int32_t code;
    if (session == NULL || bytes == NULL || length == NULL) return NELI_NULL;
    lent.bytes = neli_read_at(NULL);
    lent.length = 0;
    code = neli_c_session_next_outgoing(session);
    if (code == NELI_ITEM) code = neli_c_session_outgoing(session, &lent);
    *bytes = lent.bytes;
    *length = lent.length;
    return code;
}

/* The link has sent what neli_session_outgoing lent. */
static inline int32_t neli_session_sent(struct neli_session *session) {
    if (session == NULL) return NELI_NULL;
    return neli_c_session_sent(session);
}

/* The link has not sent it, by a number in errno.h: its requests read that as NELI_LINK, and nothing comes for them. */
static inline int32_t neli_session_not_sent(struct neli_session *session, int32_t error_number) {
    if (session == NULL) return NELI_NULL;
    return neli_c_session_not_sent(session, error_number);
}

/* Takes in a datagram of a group, or of none, which is 0; `is_joined` is whether the socket is in that group. It is
 * copied, and `taken` is its length. At NELI_MEMORY its first messages were taken in, and `taken` is how many bytes
 * they have: hand in the others again. One that cannot be read to its end is a loss, after its messages. */
static inline int32_t neli_session_receive(struct neli_session *session, const uint8_t *bytes, size_t length,
                                           uint32_t group, bool is_joined, size_t *taken) {
    if (session == NULL || !neli_is_slice(bytes, length) || taken == NULL) return NELI_NULL;
    return neli_c_session_receive(session, neli_read_at(bytes), length, group, is_joined ? 1 : 0, taken);
}

/* The link failed, by a number in errno.h: each request that is awaited, multicast and the unasked read that as a
 * loss. */
static inline int32_t neli_session_fault(struct neli_session *session, int32_t error_number) {
    if (session == NULL) return NELI_NULL;
    return neli_c_session_fault(session, error_number);
}

/* The link was seen empty, as by EAGAIN of a read: whatever was sent before gets nothing more, in the protocols that
 * Linux answers while a request is sent: routing, generic netlink, netfilter, sock_diag, IPsec and the connector. */
static inline int32_t neli_session_quiet(struct neli_session *session) {
    if (session == NULL) return NELI_NULL;
    return neli_c_session_quiet(session);
}

/* Which request has something to read, an item, a loss or the end: NELI_ITEM, and `number` is that of the first in line;
 * or NELI_WAITS, and `number` is unchanged. A request joins the line at its end when it has something, goes to the end
 * again when it was read (neli_session_pass) and has more, and leaves when it has nothing or is closed. So a loop that
 * reads and passes the first, and closes it at the end, reads all in turn. It takes constant time and no memory. */
static inline int32_t neli_session_ready(struct neli_session *session, uint32_t *number) {
    if (session == NULL || number == NULL) return NELI_NULL;
    return neli_c_session_ready(session, number);
}

/* Whether a reader has something to read: NELI_ITEM, or NELI_WAITS. It takes constant time and no memory. */
static inline int32_t neli_session_is_ready(struct neli_session *session, enum neli_reader reader, uint32_t number) {
    if (session == NULL) return NELI_NULL;
    return neli_c_session_is_ready(session, (uint32_t)reader, number);
}

/* Lends the next item of a reader, where the session keeps it; `number` is that of a request, and else not read. It
 * returns NELI_ITEM, for an acknowledgement and the end of a dump (NLMSG_DONE) too; NELI_KERNEL_ERROR for an error
 * message of a request with another code than 0, which is lent too;
 * NELI_LINK for a loss, whose errno is in `lent`: the link failed, or did not send this request; NELI_SHORT for a loss
 * by a datagram that could not be read to its end; NELI_END at the end; NELI_WAITS; NELI_HANDLE if nobody reads here:
 * closed, or never in use. The item, a loss too, stays the next one until neli_session_pass. There are bytes at the
 * first two codes alone. No memory is taken. */
static inline int32_t neli_session_next(struct neli_session *session, enum neli_reader reader, uint32_t number,
                                        struct neli_lent *lent) {
    if (session == NULL || lent == NULL) return NELI_NULL;
    lent->bytes = neli_read_at(NULL);
    lent->length = 0;
    return neli_c_session_next(session, (uint32_t)reader, number, lent);
}

/* Goes past the next item of a reader, a loss too; where none waits nothing changes. */
static inline int32_t neli_session_pass(struct neli_session *session, enum neli_reader reader, uint32_t number) {
    if (session == NULL) return NELI_NULL;
    return neli_c_session_pass(session, (uint32_t)reader, number);
}

/* The verdict on the answer to a request, by what was read of it: NELI_OK if it is complete; NELI_WAITS until it has
 * ended; NELI_INTERRUPTED if the listed objects changed meanwhile; NELI_KERNEL_ERROR if it failed, by the code in
 * `verdict`; NELI_LINK if something of it was lost by the link, or it was not sent, by the errno in `verdict`;
 * NELI_SHORT if something was lost by a datagram that could not be read to its end; NELI_UNENDED if the link was seen
 * empty before its end. All but NELI_WAITS are final. NELI_HANDLE if the number is not in use; then `verdict` is
 * unchanged. */
static inline int32_t neli_session_verdict(struct neli_session *session, uint32_t number,
                                           struct neli_verdict *verdict) {
    if (session == NULL || verdict == NULL) return NELI_NULL;
    return neli_c_session_verdict(session, number, verdict);
}

/* Closes a request: nothing of its answer is kept any more, and its number is in use until nothing more can come for
 * it. Does nothing where the number is not in use. */
static inline int32_t neli_session_close(struct neli_session *session, uint32_t number) {
    if (session == NULL) return NELI_NULL;
    return neli_c_session_close(session, number);
}

/* Closes multicast: nothing of it is kept any more. It is not opened again. */
static inline int32_t neli_session_close_multicast(struct neli_session *session) {
    if (session == NULL) return NELI_NULL;
    return neli_c_session_close_multicast(session);
}

/* NELI_IN_USE if the request of this number is still to be sent, something may still come for it, or its answer is
 * read; else NELI_OK. */
static inline int32_t neli_session_is_in_use(struct neli_session *session, uint32_t number) {
    if (session == NULL) return NELI_NULL;
    return neli_c_session_is_in_use(session, number);
}

/* ---- How Linux answers ---- */

/* What happens to a list that a program keeps current by what comes to its group: it was requested with this number, the
 * sequence number or another that tells its requests apart; the request with this number has ended with a verdict of
 * this code, NELI_OK if it is whole; or something was lost of what came to groups, which concerns all lists. Each returns
 * NELI_OK, and `state` says whether the list is to be requested. The end of another request changes nothing. */
static inline int32_t neli_list_requested(struct neli_list *list, uint32_t number) {
    return list != NULL ? neli_c_list_requested(list, number) : NELI_NULL;
}

static inline int32_t neli_list_ended(struct neli_list *list, uint32_t number, int32_t code) {
    return list != NULL ? neli_c_list_ended(list, number, code) : NELI_NULL;
}

static inline int32_t neli_list_lost(struct neli_list *list) {
    return list != NULL ? neli_c_list_lost(list) : NELI_NULL;
}

/* 1 if a list may be complete when it is requested again, by the code and the error of its verdict: it was interrupted,
 * something of it was lost, or the kernel was busy with another one (EBUSY) or had no room for it (ENOBUFS); else 0. */
static inline int32_t neli_is_passing(int32_t code, int32_t error) {
    return neli_c_is_passing(code, error);
}

/* How Linux answers a request, as a number of enum neli_answering: one of this protocol (NETLINK_ROUTE is 0), with this
 * type, these flags, and a body of this length. A protocol whose rules the library does not have is judged by the flags
 * alone: both bits of NLM_F_DUMP request a dump, else NLM_F_ACK an acknowledgement, else a reply is expected. */
static inline uint32_t neli_answering(int32_t protocol, uint16_t type, uint16_t flags, size_t body_length) {
    return neli_c_answering(protocol, type, flags, body_length);
}

/* 1 if such an answer ends with a message of this type, with these flags, and with this code if it is an error (0 in an
 * acknowledgement, as -19 for ENODEV), else 0. A dump ends with NLMSG_DONE, whether its messages have NLM_F_MULTI or not,
 * and goes on after the error ENOBUFS (-105), with which Linux says that the socket's buffer was full as it began. A
 * number that is none of enum neli_answering is taken for NELI_ANSWERING_ACKNOWLEDGEMENT. */
static inline int32_t neli_ends_answer(uint32_t answering, uint16_t type, uint16_t flags, int32_t code) {
    return neli_c_ends_answer(answering, type, flags, code);
}

/* ---- A kernel to test against ---- */

/* A program's request is read, and each answer of a kernel is made as bytes, which neli_router_datagram takes as
 * those of a socket: docs/SIMULATOR.md. Codes of errors are 0 or below, as -22 for EINVAL. `ext_ack` lists the
 * attributes of the extended acknowledgement, as neli_put_attribute writes them (NELI_ANSWER_TEXT); null and 0 is none.
 *
 * An answer is written into `out`, and `length` is how many bytes it has, also at NELI_ROOM. Without NELI_OK nothing is
 * written. NELI_LENGTH if the answer's length passes 32 bits; NELI_SHORT, NELI_LENGTH or NELI_BYTES if `ext_ack`
 * is no list of attributes; NELI_MEMORY. */

/* The next message of a walk as a request from the socket of this port; as neli_next_message. It takes no memory. */
static inline int32_t neli_next_request(const uint8_t *bytes, size_t length, struct neli_walk *walk, uint32_t port,
                                        struct neli_request *request) {
    if (!neli_is_slice(bytes, length) || walk == NULL || request == NULL) return NELI_NULL;
    return neli_c_next_request(neli_read_at(bytes), length, walk, port, request);
}

/* The acknowledgement of a request: type 2, CAPPED, the code 0, and the request's header. */
static inline int32_t neli_kernel_ack(const struct neli_request *request, const void *ext_ack, size_t ext_ack_length,
                                      uint8_t *out, size_t room, size_t *length) {
    if (request == NULL || !neli_is_slice(ext_ack, ext_ack_length)) return NELI_NULL;
    if (!neli_is_slice(out, room) || length == NULL) return NELI_NULL;
    return neli_c_kernel_ack(request, neli_read_at((const uint8_t *)ext_ack), ext_ack_length, neli_write_at(out), room,
                             length);
}

/* The error with this code, and the request's header alone: for a socket with NETLINK_CAP_ACK. */
static inline int32_t neli_kernel_capped_error(const struct neli_request *request, int32_t code, const void *ext_ack,
                                               size_t ext_ack_length, uint8_t *out, size_t room, size_t *length) {
    if (request == NULL || !neli_is_slice(ext_ack, ext_ack_length)) return NELI_NULL;
    if (!neli_is_slice(out, room) || length == NULL) return NELI_NULL;
    return neli_c_kernel_capped_error(request, code, neli_read_at((const uint8_t *)ext_ack), ext_ack_length,
                                      neli_write_at(out), room, length);
}

/* The error with this code, and the request whole: `sent` are the bytes that it was read from. NELI_PLACE if its
 * payload is past them. */
static inline int32_t neli_kernel_error(const uint8_t *sent, size_t sent_length, const struct neli_request *request,
                                        int32_t code, const void *ext_ack, size_t ext_ack_length, uint8_t *out,
                                        size_t room, size_t *length) {
    if (!neli_is_slice(sent, sent_length) || request == NULL) return NELI_NULL;
    if (!neli_is_slice(ext_ack, ext_ack_length) || !neli_is_slice(out, room) || length == NULL) return NELI_NULL;
    return neli_c_kernel_error(neli_read_at(sent), sent_length, request, code, neli_read_at((const uint8_t *)ext_ack),
                               ext_ack_length, neli_write_at(out), room, length);
}

/* One reply of this type, with these flags and this body. */
static inline int32_t neli_kernel_reply(const struct neli_request *request, uint16_t type, uint16_t flags,
                                        const void *body, size_t body_length, uint8_t *out, size_t room,
                                        size_t *length) {
    if (request == NULL || !neli_is_slice(body, body_length)) return NELI_NULL;
    if (!neli_is_slice(out, room) || length == NULL) return NELI_NULL;
    return neli_c_kernel_reply(request, type, flags, neli_read_at((const uint8_t *)body), body_length,
                               neli_write_at(out), room, length);
}

/* A message to groups of this type, with these flags and this body. Number and port are those of the request that
 * caused it, or 0. */
static inline int32_t neli_kernel_notification(uint16_t type, uint16_t flags, uint32_t number, uint32_t port,
                                               const void *body, size_t body_length, uint8_t *out, size_t room,
                                               size_t *length) {
    if (!neli_is_slice(body, body_length) || !neli_is_slice(out, room) || length == NULL) return NELI_NULL;
    return neli_c_kernel_notification(type, flags, number, port, neli_read_at((const uint8_t *)body), body_length,
                                      neli_write_at(out), room, length);
}

/* Opens a dump, the answer to a request for a whole table, in datagrams of at most `limit` bytes. It keeps nothing of
 * the request's bytes. NELI_STATE if it is open; NELI_MEMORY. Free it by neli_kernel_dump_free. */
static inline int32_t neli_kernel_dump_new(struct neli_kernel_dump *dump, const struct neli_request *request,
                                           size_t limit) {
    if (dump == NULL || request == NULL) return NELI_NULL;
    return neli_c_kernel_dump_new(dump, request, limit);
}

/* Frees a dump, and closes it; a closed one may be freed again. */
static inline int32_t neli_kernel_dump_free(struct neli_kernel_dump *dump) {
    if (dump == NULL) return NELI_NULL;
    return neli_c_kernel_dump_free(dump);
}

/* One message more of a dump, with these flags, as NLM_F_DUMP_INTR, and MULTI. It goes behind the last one if the
 * limit allows, and else begins the next datagram. NELI_STATE if the dump is closed or finished; NELI_LENGTH if
 * the message alone is longer than the limit, or than 32 bits; NELI_MEMORY: then the dump is as it was. */
static inline int32_t neli_kernel_dump_push(struct neli_kernel_dump *dump, uint16_t type, uint16_t flags,
                                            const void *body, size_t body_length) {
    if (dump == NULL || !neli_is_slice(body, body_length)) return NELI_NULL;
    return neli_c_kernel_dump_push(dump, type, flags, neli_read_at((const uint8_t *)body), body_length);
}

/* The same with these flags alone: some families, as netdev, leave MULTI out. */
static inline int32_t neli_kernel_dump_push_reply(struct neli_kernel_dump *dump, uint16_t type, uint16_t flags,
                                                  const void *body, size_t body_length) {
    if (dump == NULL || !neli_is_slice(body, body_length)) return NELI_NULL;
    return neli_c_kernel_dump_push_reply(dump, type, flags, neli_read_at((const uint8_t *)body), body_length);
}

/* Has the next message begin a datagram. NELI_STATE if the dump is closed or finished; NELI_MEMORY: then the dump is
 * as it was. */
static inline int32_t neli_kernel_dump_begin_datagram(struct neli_kernel_dump *dump) {
    if (dump == NULL) return NELI_NULL;
    return neli_c_kernel_dump_begin_datagram(dump);
}

/* Puts the end in, with these flags and MULTI: the code is 0 if all went well, else below, as -19 for ENODEV. It
 * returns what neli_kernel_dump_push does, and what is said of `ext_ack` above. */
static inline int32_t neli_kernel_dump_finish(struct neli_kernel_dump *dump, uint16_t flags, int32_t code,
                                              const void *ext_ack, size_t ext_ack_length) {
    if (dump == NULL || !neli_is_slice(ext_ack, ext_ack_length)) return NELI_NULL;
    return neli_c_kernel_dump_finish(dump, flags, code, neli_read_at((const uint8_t *)ext_ack), ext_ack_length);
}

/* The next datagram of a dump that is finished: NELI_ITEM, or NELI_END if all were handed out. NELI_WAITS if the
 * dump is not finished; NELI_ROOM if `out` is too small: `length` is then what is needed, and the next call gives
 * the same one; NELI_STATE if the dump is closed. It takes no memory. */
static inline int32_t neli_kernel_dump_next(struct neli_kernel_dump *dump, uint8_t *out, size_t room, size_t *length) {
    if (dump == NULL || !neli_is_slice(out, room) || length == NULL) return NELI_NULL;
    return neli_c_kernel_dump_next(dump, neli_write_at(out), room, length);
}

/* ---- Messages by name ---- */

/* What attributes are called and what their payloads are stands in tables of families: docs/TABLES.md. All but the
 * first three calls return NELI_STATE if the tables are closed. Those that open tables, add or learn, and the one that
 * writes a message from JSON, return NELI_MEMORY if memory runs out, which leaves all unchanged; printing takes none.
 * NELI_LENGTH if a text has more bytes than a size_t counts: `size`, and the `count` of items, are as they were then. */

/* Opens tables without any family; NELI_STATE if they are open, and they stay so. */
static inline int32_t neli_tables_new(struct neli_tables *tables) {
    if (tables == NULL) return NELI_NULL;
    return neli_c_tables_new(tables);
}

/* Opens the tables of all families that the library has; NELI_STATE if they are open, and NELI_TABLE if a text that is
 * built in cannot be read, and they stay as they are. */
static inline int32_t neli_tables_built_in(struct neli_tables *tables) {
    if (tables == NULL) return NELI_NULL;
    return neli_c_tables_built_in(tables);
}

/* Frees what tables have, and closes them; closed ones may be freed again. */
static inline int32_t neli_tables_free(struct neli_tables *tables) {
    if (tables == NULL) return NELI_NULL;
    return neli_c_tables_free(tables);
}

/* Adds the table of a family behind the others, from its text (docs/TABLES.md). The text is read in place: it stays as
 * it is until the tables are freed. NELI_TABLE if a line is bad, and nothing is added: `line` is the number of the
 * first, counted from 1, `reason` has why, as much of it as there is room for, and `length` is how long that is. */
static inline int32_t neli_tables_add(struct neli_tables *tables, const void *text, size_t text_length, size_t *line,
                                      char *reason, size_t room, size_t *length) {
    if (tables == NULL || !neli_is_slice(text, text_length) || line == NULL) return NELI_NULL;
    if (!neli_is_slice(reason, room) || length == NULL) return NELI_NULL;
    return neli_c_tables_add(tables, neli_read_at((const uint8_t *)text), text_length, line,
                             neli_write_at((uint8_t *)reason), room, length);
}

/* Adds the table of one family that the library has, behind the others, in a small part of the time that
 * neli_tables_built_in takes: by the name of its text, as `rt_link` or `ethtool`, of those that docs/TABLES.md lists.
 * NELI_KIND if none has the name, and NELI_TABLE if the text cannot be read; then nothing is added. */
static inline int32_t neli_tables_add_built_in(struct neli_tables *tables, const char *name) {
    if (tables == NULL || name == NULL) return NELI_NULL;
    return neli_c_tables_add_built_in(tables, (const uint8_t *)name, strlen(name));
}

/* Learns that the family of generic netlink with this name has this number, as the kernel gives it. */
static inline int32_t neli_tables_learn(struct neli_tables *tables, uint16_t id, const void *name,
                                        size_t name_length) {
    if (tables == NULL || !neli_is_slice(name, name_length)) return NELI_NULL;
    return neli_c_tables_learn(tables, id, neli_read_at((const uint8_t *)name), name_length);
}

/* Learns the same from a message of the controller that names a family (CTRL_CMD_NEWFAMILY); of any other message
 * nothing. NELI_PLACE if its payload is past the bytes. */
static inline int32_t neli_tables_learn_from(struct neli_tables *tables, uint16_t protocol, const uint8_t *bytes,
                                             size_t length, const struct neli_message *message) {
    if (tables == NULL || !neli_is_slice(bytes, length) || message == NULL) return NELI_NULL;
    return neli_c_tables_learn_from(tables, protocol, neli_read_at(bytes), length, message);
}

/* Prints a message of a protocol (NETLINK_ROUTE is 0) as lines of text, or as one object of JSON without a line feed,
 * as docs/SHOW.md says: its beginning that there is room for. `size` is how long the whole is, also at NELI_ROOM, which
 * says that it does not fit. No zero byte is put behind it. NELI_PLACE if the payload is past the bytes. */
static inline int32_t neli_message_text(struct neli_tables *tables, uint16_t protocol, const uint8_t *bytes,
                                        size_t length, const struct neli_message *message, char *out, size_t room,
                                        size_t *size) {
    if (tables == NULL || !neli_is_slice(bytes, length) || message == NULL) return NELI_NULL;
    if (!neli_is_slice(out, room) || size == NULL) return NELI_NULL;
    return neli_c_message_text(tables, protocol, neli_read_at(bytes), length, message, neli_write_at((uint8_t *)out),
                               room, size);
}

static inline int32_t neli_message_json(struct neli_tables *tables, uint16_t protocol, const uint8_t *bytes,
                                        size_t length, const struct neli_message *message, char *out, size_t room,
                                        size_t *size) {
    if (tables == NULL || !neli_is_slice(bytes, length) || message == NULL) return NELI_NULL;
    if (!neli_is_slice(out, room) || size == NULL) return NELI_NULL;
    return neli_c_message_json(tables, protocol, neli_read_at(bytes), length, message, neli_write_at((uint8_t *)out),
                               room, size);
}

/* The same of all messages of a datagram, and of the fault behind them, if there is one: in JSON each on a line. */
static inline int32_t neli_datagram_text(struct neli_tables *tables, uint16_t protocol, const uint8_t *bytes,
                                         size_t length, char *out, size_t room, size_t *size) {
    if (tables == NULL || !neli_is_slice(bytes, length)) return NELI_NULL;
    if (!neli_is_slice(out, room) || size == NULL) return NELI_NULL;
    return neli_c_datagram_text(tables, protocol, neli_read_at(bytes), length, neli_write_at((uint8_t *)out), room,
                                size);
}

static inline int32_t neli_datagram_json(struct neli_tables *tables, uint16_t protocol, const uint8_t *bytes,
                                         size_t length, char *out, size_t room, size_t *size) {
    if (tables == NULL || !neli_is_slice(bytes, length)) return NELI_NULL;
    if (!neli_is_slice(out, room) || size == NULL) return NELI_NULL;
    return neli_c_datagram_json(tables, protocol, neli_read_at(bytes), length, neli_write_at((uint8_t *)out), room,
                                size);
}

/* Stores a message's attributes by name, those in a nest behind the nest; and writes of each its path, the names from
 * the outside in with dots between them, as IFLA_LINKINFO.IFLA_INFO_KIND, a number where there is no row, and behind it
 * its value in JSON, by what its row says that it is, or else its bytes, as of a nest, whose attributes follow. A rest
 * has the path of its list, `body` in the message's own. `count` is how many items there are, and `size` how many bytes
 * their texts have: NELI_OK if both had room. NELI_ROOM if not: the first items are stored that had, and the beginning
 * of the texts; a second call with this room has it all. `item_room` counts items. No zero byte ends a text. The time
 * is that of one walk, however many items there are. NELI_KIND if no table has the attributes of such a message,
 * NELI_SHORT if its body is shorter than the structure before them, NELI_PLACE if its payload is past the bytes; then
 * nothing is stored. */
static inline int32_t neli_named_items(struct neli_tables *tables, uint16_t protocol, const uint8_t *bytes,
                                       size_t length, const struct neli_message *message, struct neli_named *items,
                                       size_t item_room, size_t *count, char *text, size_t room, size_t *size) {
    static struct neli_named none[1];
    if (tables == NULL || !neli_is_slice(bytes, length) || message == NULL || count == NULL) return NELI_NULL;
    if (item_room > PTRDIFF_MAX / sizeof *items || !neli_is_slice(items, item_room)) return NELI_NULL;
    if (!neli_is_slice(text, room) || size == NULL) return NELI_NULL;
    return neli_c_named_items(tables, protocol, neli_read_at(bytes), length, message, items != NULL ? items : none,
                              item_room, count, neli_write_at((uint8_t *)text), room, size);
}

/* Stores the field of this index, counted from 0, of the structure before a message's attributes, as `ifi_index` of a
 * link: an item of the kind NELI_KIND_FIELD, whose path is its name, and writes its texts as neli_named_items does:
 * NELI_ITEM, or NELI_END if there is no such field. Of a field that ends past the body its bytes are those that are
 * there. NELI_PLACE if the payload is past the bytes.
 *
 * NELI_ITEM is returned also if the texts do not fit: `text` has their beginning, and `size` is how long the whole is.
 * Without NELI_ITEM `field` and `size` are as they were. */
static inline int32_t neli_named_field(struct neli_tables *tables, uint16_t protocol, const uint8_t *bytes,
                                       size_t length, const struct neli_message *message, size_t index,
                                       struct neli_named *field, char *text, size_t room, size_t *size) {
    if (tables == NULL || !neli_is_slice(bytes, length) || message == NULL || field == NULL) return NELI_NULL;
    if (!neli_is_slice(text, room) || size == NULL) return NELI_NULL;
    return neli_c_named_field(tables, protocol, neli_read_at(bytes), length, message, index, field,
                              neli_write_at((uint8_t *)text), room, size);
}

/* Stores the number of a name in the first table whose family has this name, as `rt-link` or `ethtool`: of the first row
 * with it in the first list of that name, a set of attributes, an enum, flags, a choice, or a structure, whose fields
 * have the place of their first byte; or where `list` is null or empty of the first message or group of the family, as
 * RTM_NEWLINK. NELI_ITEM, or NELI_END if there is none. */
static inline int32_t neli_number_of(struct neli_tables *tables, const char *family, const char *list,
                                     const char *name, uint64_t *number) {
    if (tables == NULL || family == NULL || name == NULL || number == NULL) return NELI_NULL;
    if (list == NULL) list = "";
    return neli_c_number_of(tables, (const uint8_t *)family, strlen(family), (const uint8_t *)list, strlen(list),
                            (const uint8_t *)name, strlen(name), number);
}

/* Writes the name of a number in such a table: of the first row with it in the list; or where `list` is null or empty of
 * the message that goes to the kernel, of generic netlink the command. NELI_ITEM, or NELI_END if there is none. No zero
 * byte ends it.
 *
 * NELI_ITEM is returned also if the name does not fit: `out` has its beginning, and `size` is how long the whole is.
 * Without NELI_ITEM `size` is as it was. */
static inline int32_t neli_name_of(struct neli_tables *tables, const char *family, const char *list, uint64_t number,
                                   char *out, size_t room, size_t *size) {
    if (tables == NULL || family == NULL || !neli_is_slice(out, room) || size == NULL) return NELI_NULL;
    if (list == NULL) list = "";
    return neli_c_name_of(tables, (const uint8_t *)family, strlen(family), (const uint8_t *)list, strlen(list), number,
                          neli_write_at((uint8_t *)out), room, size);
}

/* Writes the name of a message's line, as RTM_NEWLINK or ETHTOOL_MSG_RINGS_GET, by its way, its type, and what its body
 * begins with; as neli_name_of. NELI_PLACE if its payload is past the bytes. */
static inline int32_t neli_message_name(struct neli_tables *tables, uint16_t protocol, const uint8_t *bytes,
                                        size_t length, const struct neli_message *message, char *out, size_t room,
                                        size_t *size) {
    if (tables == NULL || !neli_is_slice(bytes, length) || message == NULL) return NELI_NULL;
    if (!neli_is_slice(out, room) || size == NULL) return NELI_NULL;
    return neli_c_message_name(tables, protocol, neli_read_at(bytes), length, message, neli_write_at((uint8_t *)out),
                               room, size);
}

/* Checks a message before it is sent, as the parser does by which the kernel reads such a request, the strict or the
 * liberal one, as its table says: NELI_OK, or NELI_VIOLATION, and then `out` has the path of the first attribute that
 * it would refuse, and what is wrong with it. Its flags have NLM_F_REQUEST, as what is sent has; else it is read as a
 * message of the kernel's. A message without a line passes, as of a family of generic netlink whose number was not
 * learnt. NELI_PLACE if the payload is past the bytes.
 *
 * NELI_VIOLATION is returned also if that text does not fit: `out` has its beginning, and `size` is how long the whole
 * is. Without NELI_VIOLATION `size` is as it was. */
static inline int32_t neli_check(struct neli_tables *tables, uint16_t protocol, const uint8_t *bytes, size_t length,
                                 const struct neli_message *message, char *out, size_t room, size_t *size) {
    if (tables == NULL || !neli_is_slice(bytes, length) || message == NULL) return NELI_NULL;
    if (!neli_is_slice(out, room) || size == NULL) return NELI_NULL;
    return neli_c_check(tables, protocol, neli_read_at(bytes), length, message, neli_write_at((uint8_t *)out), room,
                        size);
}

/* The same by the parser that `validation` names, whatever the table says. NELI_KIND if it names none. */
static inline int32_t neli_check_as(struct neli_tables *tables, enum neli_validation validation, uint16_t protocol,
                                    const uint8_t *bytes, size_t length, const struct neli_message *message,
                                    char *out, size_t room, size_t *size) {
    if (tables == NULL || !neli_is_slice(bytes, length) || message == NULL) return NELI_NULL;
    if (!neli_is_slice(out, room) || size == NULL) return NELI_NULL;
    return neli_c_check_as(tables, (int32_t)validation, protocol, neli_read_at(bytes), length, message,
                           neli_write_at((uint8_t *)out), room, size);
}

/* Prints the path to the attribute that contains an offset, counted from the message's first byte, as that of an
 * extended acknowledgement (NELI_ANSWER_OFFSET): NELI_ITEM, or NELI_END where the tables know no attribute there.
 * NELI_PLACE if the payload is past the bytes.
 *
 * NELI_ITEM is returned also if the path does not fit: `path` has its beginning, and `size` is how long the whole is.
 * Without NELI_ITEM `size` is as it was. */
static inline int32_t neli_path_at(struct neli_tables *tables, uint16_t protocol, const uint8_t *bytes, size_t length,
                                   const struct neli_message *message, size_t offset, char *path, size_t room,
                                   size_t *size) {
    if (tables == NULL || !neli_is_slice(bytes, length) || message == NULL) return NELI_NULL;
    if (!neli_is_slice(path, room) || size == NULL) return NELI_NULL;
    return neli_c_path_at(tables, protocol, neli_read_at(bytes), length, message, offset,
                          neli_write_at((uint8_t *)path), room, size);
}

/* Prints a refusal of the kernel in a line: the name and the meaning of its code, as -22 for EINVAL; its text, if it
 * sent one (NELI_ANSWER_TEXT); and the path to the attribute at its offset (NELI_ANSWER_OFFSET) in the request, which
 * is this message, if the tables know one there, as
 * `ERANGE: Numerical result out of range: Attribute failed policy validation: IFLA_IFNAME`. An offset of 0 is none.
 * NELI_ROOM and NELI_PLACE as of neli_message_text. */
static inline int32_t neli_refusal_text(struct neli_tables *tables, uint16_t protocol, const uint8_t *bytes,
                                        size_t length, const struct neli_message *message, int32_t code,
                                        const void *text, size_t text_length, size_t offset, char *out, size_t room,
                                        size_t *size) {
    if (tables == NULL || !neli_is_slice(bytes, length) || message == NULL) return NELI_NULL;
    if (!neli_is_slice(text, text_length) || !neli_is_slice(out, room) || size == NULL) return NELI_NULL;
    return neli_c_refusal_text(tables, protocol, neli_read_at(bytes), length, message, code,
                               neli_read_at((const uint8_t *)text), text_length, offset,
                               neli_write_at((uint8_t *)out), room, size);
}

/* Prints a refusal of the kernel in a line by the attributes of its acknowledgement, which are the bytes that
 * `attributes` of a `struct neli_answer` leads over: as neli_refusal_text, and behind the path the value as it was
 * sent, what the kernel's policy allows, and the name of an attribute that is missing, as `ERANGE: Numerical result out
 * of range: integer out of range: IFLA_GSO_MAX_SIZE = 1, allowed 193..4294967295`. What the kernel does not say is left
 * out. */
static inline int32_t neli_diagnosis(struct neli_tables *tables, uint16_t protocol, const uint8_t *bytes,
                                     size_t length, const struct neli_message *message, int32_t code,
                                     const void *ext_ack, size_t ext_ack_length, char *out, size_t room,
                                     size_t *size) {
    if (tables == NULL || !neli_is_slice(bytes, length) || message == NULL) return NELI_NULL;
    if (!neli_is_slice(ext_ack, ext_ack_length) || !neli_is_slice(out, room) || size == NULL) return NELI_NULL;
    return neli_c_diagnosis(tables, protocol, neli_read_at(bytes), length, message, code,
                            neli_read_at((const uint8_t *)ext_ack), ext_ack_length, neli_write_at((uint8_t *)out),
                            room, size);
}

/* Writes the message that an object of JSON is, of the form that docs/WRITING.md states, with header, payload and
 * padding: NELI_OK, and `size` is how many bytes it has. The tables read what is written as a message of the object's
 * name that has what was asked for, and nothing else. NELI_VIOLATION if it is refused: `out` has why, as `IFLA_MTUU: no
 * such name, the nearest is IFLA_MTU` or `no JSON at line 1, column 9`, or the beginning of that, and `size` is how
 * long the whole is. NELI_ROOM if the message does not fit: `size` is how many bytes it has, and `out` is as it was.
 * NELI_LENGTH if its length passes 32 bits. */
static inline int32_t neli_write_json(struct neli_tables *tables, uint16_t protocol, const void *json,
                                      size_t json_length, uint8_t *out, size_t room, size_t *size) {
    if (tables == NULL || !neli_is_slice(json, json_length) || !neli_is_slice(out, room) || size == NULL)
        return NELI_NULL;
    return neli_c_write_json(tables, protocol, neli_read_at((const uint8_t *)json), json_length, neli_write_at(out),
                             room, size);
}

#ifdef __cplusplus
}
#endif
#endif
