/* Bodies of requests, changes, and how a program ends: with a status that reports whether it printed all of the
 * kernel's answer, and a line with the cause if not. */
#ifndef REQUEST_H
#define REQUEST_H

#include "neli_host.h"

/* A body that is being written: a header, and attributes. */
struct body {
    uint8_t bytes[1024];
    struct neli_writer writer;
};

/* How a program ends. */
enum status {
    STATUS_COMPLETE = 0,
    STATUS_NOT_BEGUN = 1,   /* the words of the call, the socket or memory; nothing is known of an answer */
    STATUS_INTERRUPTED = 2, /* what was listed changed meanwhile, however often it was asked for */
    STATUS_FAILED = 3,      /* the kernel refused, or ended a list with an error */
    STATUS_LOST = 4         /* the link failed, or what came is no answer: some is missing */
};

/* The status for a code of a verdict, or of a call. */
enum status status_of(int32_t code);

/* A line on stderr, `what: ` and the meaning of a code. */
void say(const struct neli_host *host, const char *what, int32_t code, const struct neli_message *message);

/* Ends the program with that line and the status of the code. */
void fail(const struct neli_host *host, const char *what, int32_t code, const struct neli_message *message);

/* Opens a host, or ends the program with STATUS_NOT_BEGUN. */
void open_or_fail(struct neli_host **host, int family, const uint32_t *groups, size_t count);

/* Appends a header, or bytes with padding. */
void put(struct body *body, const void *bytes, size_t length);

/* Appends an attribute. */
void put_attribute(struct body *body, uint16_t type, const void *payload, size_t length);

/* Appends an attribute that is a text with its zero byte. */
void put_text(struct body *body, uint16_t type, const char *text);

/* Begins an attribute that lists attributes, and ends it. */
size_t begin_nest(struct body *body, uint16_t type);
void end_nest(struct body *body, size_t nest);

/* A body of a pair of links of these names. */
struct body pair(const char *name, const char *peer);

/* A body of the link with this index, whose flag IFF_UP is set to `is_up`; for an index of 0 of none. */
struct body link_body(int index, bool is_up);

/* Sends a request, and waits for the kernel's acknowledgement: NELI_OK if it is done, or why not. */
int32_t ask(struct neli_host *host, uint16_t type, uint16_t flags, const struct body *body,
            struct neli_message *message);

#endif
