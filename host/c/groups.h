/* Words of a command line that name a protocol of netlink and its multicast groups. */
#ifndef GROUPS_H
#define GROUPS_H

#include <linux/netlink.h>
#include <stdbool.h>
#include <stddef.h>
#include <stdint.h>

struct groups {
    int protocol;
    uint32_t at[64];
    size_t count;
};

/* A number, in decimal digits. */
bool is_number(const char *word, unsigned long *number);

/* `route`, `generic`, or a number. */
bool is_protocol(const char *word, int *protocol);

/* Adds numbers of groups, with commas between them. */
bool are_groups(const char *words, struct groups *groups);

/* Whether there are groups. Of route they are those of links, IPv4 addresses and IPv4 routes where none are named. */
bool have_groups(struct groups *groups);

#endif
