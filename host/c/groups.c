#include "groups.h"
#include <ctype.h>
#include <errno.h>
#include <limits.h>
#include <linux/rtnetlink.h>
#include <stdlib.h>
#include <string.h>

bool is_number(const char *word, unsigned long *number) {
    char *end;
    if (!isdigit((unsigned char)*word)) return false;
    errno = 0;
    *number = strtoul(word, &end, 10);
    return *end == 0 && errno == 0;
}

bool is_protocol(const char *word, int *protocol) {
    unsigned long number;
    if (strcmp(word, "route") == 0) number = NETLINK_ROUTE;
    else if (strcmp(word, "generic") == 0) number = NETLINK_GENERIC;
    else if (!is_number(word, &number) || number >= MAX_LINKS) return false;
    *protocol = (int)number;
    return true;
}

bool are_groups(const char *words, struct groups *groups) {
    while (groups->count < sizeof groups->at / sizeof *groups->at) {
        char *end;
        unsigned long number = strtoul(words, &end, 10);
        if (!isdigit((unsigned char)*words) || number == 0 || number > INT_MAX) return false;
        groups->at[groups->count++] = (uint32_t)number;
        if (*end == 0) return true;
        if (*end != ',') return false;
        words = end + 1;
    }
    return false;
}

bool have_groups(struct groups *groups) {
    static const uint32_t of_route[] = {RTNLGRP_LINK, RTNLGRP_IPV4_IFADDR, RTNLGRP_IPV4_ROUTE};
    if (groups->count == 0 && groups->protocol == NETLINK_ROUTE) {
        memcpy(groups->at, of_route, sizeof of_route);
        groups->count = sizeof of_route / sizeof *of_route;
    }
    return groups->count > 0;
}
