/* A reader of bench/run-live: one list of the kernel, each message, and each attribute beside its header. */
#ifndef READER_H
#define READER_H

#include <linux/rtnetlink.h>
#include <stdbool.h>
#include <stddef.h>
#include <stdint.h>

/* What a list had. `sum` adds up the types of the attributes, without the two upper bits, and the lengths of their
 * payloads; a reader that does not know `attributes` or `sum` leaves it 0. */
struct counts {
    uint64_t messages, attributes, sum;
};

/* A list that is requested: of links, or of IPv4 routes. */
struct list {
    uint16_t request, answer; /* types of messages */
    uint8_t family;
    size_t header; /* the bytes before the attributes */
    bool is_links;
};

/* Reads the list once, over a socket of its own, in the way that `how` names. */
void read_list(const char *how, const struct list *list, struct counts *counts);

/* Says on stderr what failed, and ends with status 1. */
_Noreturn void fail(const char *what);

#endif
