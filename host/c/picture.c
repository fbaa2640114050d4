/* A picture of links, addresses and routes, taken by several lists at once, and kept right by what comes to groups, on
 * the kernel of this machine. */
#include "testing.h"
#include <errno.h>
#include <linux/if_addr.h>
#include <linux/if_link.h>
#include <linux/rtnetlink.h>
#include <stdio.h>
#include <string.h>
#include <sys/socket.h>
#include <unistd.h>

/* The MTU of each link, by its index, and which of 203.0.113.N are addresses, and of 198.51.100.N routes. */
struct picture {
    uint32_t mtu[4096];
    bool addresses[256], routes[256];
};

/* ---- What is taken ---- */

/* An attribute of four bytes after a header of so many bytes, or NULL. */
static const uint8_t *four_bytes(const struct neli_host *host, const struct neli_message *message, size_t header,
                                 uint16_t number) {
    struct neli_walk walk;
    struct neli_attribute found;
    WANT(neli_attributes_of(message, header, &walk) == NELI_OK);
    bool is_there = neli_host_find(host, &walk, number, &found) && found.payload_length == 4;
    return is_there ? neli_host_item(host) + found.payload : NULL;
}

static void take_link(const struct neli_host *host, const struct neli_message *message, void *of) {
    struct picture *picture = of;
    struct ifinfomsg link;
    if (message == NULL) {
        memset(picture->mtu, 0, sizeof picture->mtu);
        return;
    }
    const uint8_t *mtu = four_bytes(host, message, sizeof link, IFLA_MTU);
    memcpy(&link, neli_host_item(host) + message->payload, sizeof link);
    uint32_t *at = &picture->mtu[(unsigned)link.ifi_index % 4096];
    *at = 0;
    if (message->type == RTM_NEWLINK && mtu != NULL) memcpy(at, mtu, sizeof *at);
}

static void take_address(const struct neli_host *host, const struct neli_message *message, void *of) {
    struct picture *picture = of;
    if (message == NULL) {
        memset(picture->addresses, 0, sizeof picture->addresses);
        return;
    }
    const uint8_t *local = four_bytes(host, message, sizeof(struct ifaddrmsg), IFA_LOCAL);
    if (local != NULL && local[0] == 203) picture->addresses[local[3]] = message->type == RTM_NEWADDR;
}

static void take_route(const struct neli_host *host, const struct neli_message *message, void *of) {
    struct picture *picture = of;
    if (message == NULL) {
        memset(picture->routes, 0, sizeof picture->routes);
        return;
    }
    const uint8_t *to = four_bytes(host, message, sizeof(struct rtmsg), RTA_DST);
    if (to != NULL && to[0] == 198) picture->routes[to[3]] = message->type == RTM_NEWROUTE;
}

static void take(const struct neli_host *host, const struct neli_message *message, void *picture) {
    if (message->type <= RTM_DELLINK) take_link(host, message, picture);
    else if (message->type <= RTM_DELADDR) take_address(host, message, picture);
    else take_route(host, message, picture);
}

/* The picture by three lists, which are taken at most so many times. */
static int32_t resync(struct neli_host *host, int times, struct picture *picture) {
    static const struct ifinfomsg links;
    static const struct ifaddrmsg addresses = {.ifa_family = AF_INET};
    static const struct rtmsg routes = {.rtm_family = AF_INET};
    struct neli_message last;
    const struct neli_dump dumps[] = {
        {RTM_GETLINK, 0, &links, sizeof links, times, take_link, picture},
        {RTM_GETADDR, 0, &addresses, sizeof addresses, times, take_address, picture},
        {RTM_GETROUTE, 0, &routes, sizeof routes, times, take_route, picture},
    };
    return neli_host_resync_all(host, dumps, 3, &last);
}

/* ---- What changes ---- */

static void change_mtu(struct neli_host *host, uint32_t mtu) {
    struct body body = link_body(1, true);
    put_attribute(&body, IFLA_MTU, &mtu, sizeof mtu);
    done(host, RTM_SETLINK, 0, body);
}

static void change_address(struct neli_host *host, bool is_new, int last) {
    struct ifaddrmsg address = {.ifa_family = AF_INET, .ifa_prefixlen = 32, .ifa_index = 1};
    uint8_t local[] = {203, 0, 113, (uint8_t)last};
    struct body body = {0};
    put(&body, &address, sizeof address);
    put_attribute(&body, IFA_LOCAL, local, sizeof local);
    done(host, is_new ? RTM_NEWADDR : RTM_DELADDR, is_new ? NLM_F_CREATE : 0, body);
}

static void change_route(struct neli_host *host, bool is_new, int last) {
    struct rtmsg route = {.rtm_family = AF_INET, .rtm_dst_len = 32, .rtm_table = RT_TABLE_MAIN,
                          .rtm_protocol = RTPROT_STATIC, .rtm_scope = RT_SCOPE_LINK, .rtm_type = RTN_UNICAST};
    uint8_t to[] = {198, 51, 100, (uint8_t)last};
    int index = 1;
    struct body body = {0};
    put(&body, &route, sizeof route);
    put_attribute(&body, RTA_DST, to, sizeof to);
    put_attribute(&body, RTA_OIF, &index, sizeof index);
    done(host, is_new ? RTM_NEWROUTE : RTM_DELROUTE, is_new ? NLM_F_CREATE : 0, body);
}

/* Changes links, addresses and routes as fast as it can. */
static pid_t storm(void) {
    pid_t child = fork();
    if (child != 0) return child;
    struct neli_host *host = route_host(false);
    for (int i = 0; i < 200; i++) {
        char name[16], peer[16];
        snprintf(name, sizeof name, "a%d", i % 40);
        snprintf(peer, sizeof peer, "b%d", i % 40);
        if (i < 40) done(host, RTM_NEWLINK, NLM_F_CREATE | NLM_F_EXCL, pair(name, peer));
        if (i >= 100 && i < 120) remove_link(host, name);
        change_address(host, true, i);
        change_route(host, true, i);
        for (int j = 0; j < 10; j++) change_mtu(host, 1000u + (uint32_t)(10 * i + j));
        if (i >= 7 && i % 3 != 0) change_address(host, false, i - 7);
        if (i >= 9 && i % 2 != 0) change_route(host, false, i - 9);
    }
    neli_host_close(host);
    _exit(0);
}

/* ---- The tests ---- */

static struct neli_host *listening_host(int buffer) {
    static const uint32_t groups[] = {RTNLGRP_LINK, RTNLGRP_IPV4_IFADDR, RTNLGRP_IPV4_ROUTE};
    struct neli_host *host;
    open_or_fail(&host, NETLINK_ROUTE, groups, 3);
    set_buffer(host, buffer);
    neli_host_set_wait(host, 300);
    return host;
}

/* Reads what comes to groups until a storm is over, and takes a new picture after each loss. */
static void several_lists_are_right_after_a_storm(void) {
    static struct picture picture, truth;
    struct neli_host *host = listening_host(8000);
    set_loopback(host, true);
    WANT(resync(host, 5, &picture) == NELI_OK);
    follow(host, storm(), &picture, 300, take, resync);
    set_buffer(host, 1 << 20);
    WANT(resync(host, 5, &truth) == NELI_OK);
    WANT(truth.addresses[199] && truth.routes[199] && !truth.addresses[0] && !truth.routes[0]);
    WANT(memcmp(&picture, &truth, sizeof truth) == 0);
    neli_host_close(host);
}

/* What came before is dropped, and what comes after the lists is kept. */
static void what_comes_later_is_kept(void) {
    static struct picture picture;
    struct neli_host *host = listening_host(1 << 20), *other = route_host(false);
    struct neli_message message;
    set_loopback(other, true);
    change_address(other, true, 1);
    WANT(neli_host_resync_all(host, NULL, 0, &message) == NELI_OK);
    WANT(is_over(host, neli_host_next(host, NELI_MULTICAST, &message), EAGAIN));
    change_address(other, true, 2);
    WANT(resync(host, 1, &picture) == NELI_OK && picture.addresses[1] && picture.addresses[2] && picture.mtu[1] > 0);
    change_address(other, true, 3);
    WANT(neli_host_next(host, NELI_MULTICAST, &message) == NELI_ITEM && message.type == RTM_NEWADDR);
    take(host, &message, &picture);
    WANT(picture.addresses[3]);
    neli_host_close(other);
    neli_host_close(host);
}

/* A list that the kernel refuses ends the attempt, and the lists after it are as they were. */
static void a_list_that_is_refused(void) {
    static struct picture picture;
    static const struct ifinfomsg links;
    static const struct ifaddrmsg missing = {.ifa_family = AF_INET, .ifa_index = 4711};
    struct neli_host *host = listening_host(1 << 20);
    struct neli_message last;
    const struct neli_dump dumps[] = {
        {RTM_GETADDR, 0, &missing, sizeof missing, 3, take_address, &picture},
        {RTM_GETLINK, 0, &links, sizeof links, 3, take_link, &picture},
    };
    WANT(neli_host_set_strict(host) == NELI_OK);
    WANT(neli_host_resync_all(host, dumps, 2, &last) == NELI_KERNEL_ERROR && last.type == NLMSG_DONE);
    WANT(picture.mtu[1] == 0);
    WANT(neli_host_resync_all(host, dumps + 1, 1, &last) == NELI_OK && picture.mtu[1] > 0);
    neli_host_close(host);
}

const struct test tests[] = {
    TEST(several_lists_are_right_after_a_storm),
    TEST(what_comes_later_is_kept),
    TEST(a_list_that_is_refused),
    {0},
};
