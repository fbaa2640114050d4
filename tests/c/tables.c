/* Checks messages by name of include/neli.h: each call once, and then what each refuses. The message is one of
 * RTM_NEWLINK as linux/rtnetlink.h and linux/if_link.h have it; names and numbers are theirs. Compile it with all
 * warnings, and with the address sanitizer. */
#include "neli.h"

#include <stdio.h>
#include <stdlib.h>
#include <string.h>
#include <time.h>

static int failures;

#define CHECK(condition)                                                \
    do {                                                                \
        if (!(condition)) {                                             \
            fprintf(stderr, "tables.c:%d: %s\n", __LINE__, #condition); \
            failures++;                                                 \
        }                                                               \
    } while (0)

enum { NEWLINK = 16, IFNAME = 3, MTU = 4, LINKINFO = 18, INFO_KIND = 1, UNKNOWN = 4000, CREATE = 0x405 };

/* A link that is to be made: its name, its MTU, a kind in a nest, and an attribute that no table has. */
static size_t write_link(uint8_t *out, size_t room, const void *mtu, size_t mtu_length) {
    const uint8_t body[16] = {0, 0, 0, 0, 7};
    struct neli_writer writer = {0, 0};
    size_t nest = 0;
    CHECK(neli_begin_message(out, room, &writer, NEWLINK, CREATE, 9, 0) == NELI_OK);
    CHECK(neli_put_bytes(out, room, &writer, body, sizeof body) == NELI_OK);
    CHECK(neli_put_attribute(out, room, &writer, IFNAME, "one", 4) == NELI_OK);
    CHECK(neli_put_attribute(out, room, &writer, MTU, mtu, mtu_length) == NELI_OK);
    CHECK(neli_begin_nest(out, room, &writer, LINKINFO, &nest) == NELI_OK);
    CHECK(neli_put_attribute(out, room, &writer, INFO_KIND, "veth", 5) == NELI_OK);
    CHECK(neli_end_nest(out, room, &writer, nest) == NELI_OK);
    CHECK(neli_put_attribute(out, room, &writer, UNKNOWN, "ab", 2) == NELI_OK);
    CHECK(neli_end_message(out, room, &writer) == NELI_OK);
    return writer.end;
}

static const uint8_t mtu[4] = {0xdc, 5};
static uint8_t bytes[256];
static size_t length;
static struct neli_message message;
static struct neli_tables tables = NELI_TABLES_CLOSED;

static void read_first(void) {
    struct neli_walk walk = {0, length};
    CHECK(neli_next_message(bytes, length, &walk, &message) == NELI_ITEM);
}

static bool is_text(const char *wanted, const char *found, size_t size) {
    return size == strlen(wanted) && memcmp(found, wanted, size) == 0;
}

/* The items of a message, and their texts. */
static struct neli_named items[8];
static char texts[512];
static size_t item_count, text_size;

static int32_t read_items(struct neli_tables *by, uint16_t protocol, const uint8_t *at, size_t room_of,
                          const struct neli_message *of) {
    return neli_named_items(by, protocol, at, room_of, of, items, 8, &item_count, texts, sizeof texts, &text_size);
}

static bool has_path(size_t index, const char *wanted) {
    return index < item_count && is_text(wanted, texts + items[index].path, items[index].path_length);
}

/* Each attribute with its path, its kind and its place, and its value in JSON. */
static void check_walk(void) {
    static const struct {
        const char *path, *value;
        uint16_t number;
        uint8_t kind, depth;
        const char *payload;
        size_t payload_length;
    } rows[] = {
        {"IFLA_IFNAME", "\"one\"", IFNAME, NELI_KIND_ZTEXT, 1, "one", 4},
        {"IFLA_MTU", "1500", MTU, NELI_KIND_U32, 1, "\xdc\5\0", 4},
        {"IFLA_LINKINFO", NULL, LINKINFO, NELI_KIND_NEST, 1, NULL, 12},
        {"IFLA_LINKINFO.IFLA_INFO_KIND", "\"veth\"", INFO_KIND, NELI_KIND_ZTEXT, 2, "veth", 5},
        {"4000", "{\"bytes\":\"6162\"}", UNKNOWN, NELI_KIND_NONE, 1, "ab", 2},
    };
    size_t end = 0;
    CHECK(read_items(&tables, 0, bytes, length, &message) == NELI_OK && item_count == sizeof rows / sizeof *rows);
    for (size_t i = 0; i < item_count; i++) {
        const struct neli_named *it = &items[i];
        CHECK(has_path(i, rows[i].path) && it->path == end && it->value == it->path + it->path_length);
        CHECK(it->number == rows[i].number && it->depth == rows[i].depth);
        CHECK(it->kind == rows[i].kind || (rows[i].kind == NELI_KIND_ZTEXT && it->kind == NELI_KIND_TEXT));
        CHECK(it->payload_length == rows[i].payload_length && it->payload + it->payload_length <= length);
        CHECK(rows[i].payload == NULL || memcmp(bytes + it->payload, rows[i].payload, it->payload_length) == 0);
        CHECK(rows[i].value == NULL || is_text(rows[i].value, texts + it->value, it->value_length));
        end = it->value + it->value_length;
    }
    CHECK(text_size == end);
    /* What no table has has no attributes. */
    message.type = 4711;
    CHECK(read_items(&tables, 0, bytes, length, &message) == NELI_KIND);
    read_first();
}

static bool are_same(const struct neli_named *a, const struct neli_named *b, size_t number_of) {
    for (size_t i = 0; i < number_of; i++) {
        bool shown = a[i].number == b[i].number && a[i].kind == b[i].kind && a[i].depth == b[i].depth;
        bool placed = a[i].payload == b[i].payload && a[i].payload_length == b[i].payload_length;
        bool path = a[i].path == b[i].path && a[i].path_length == b[i].path_length;
        if (!shown || !placed || !path || a[i].value != b[i].value || a[i].value_length != b[i].value_length)
            return false;
    }
    return true;
}

/* The same in a room of each size: the first items, the beginning of the texts, and how much there is of both. */
static void check_rooms(void) {
    struct neli_named all[8], some[8];
    char whole[512], cut[512];
    size_t items_there, text_there;
    CHECK(read_items(&tables, 0, bytes, length, &message) == NELI_OK);
    memcpy(all, items, sizeof all);
    memcpy(whole, texts, sizeof whole);
    for (size_t i = 0; i <= item_count && i < 8; i++) {
        for (size_t room = i == item_count ? 0 : text_size; room <= text_size; room++) {
            memset(some, '?', sizeof some);
            memset(cut, '?', sizeof cut);
            int32_t code = neli_named_items(&tables, 0, bytes, length, &message, some, i, &items_there, cut, room,
                                            &text_there);
            CHECK(code == (i == item_count && room == text_size ? NELI_OK : NELI_ROOM));
            CHECK(items_there == item_count && text_there == text_size && are_same(some, all, i));
            CHECK(some[i].depth == '?' && memcmp(cut, whole, room) == 0 && cut[room] == '?');
        }
    }
    CHECK(neli_named_items(&tables, 0, bytes, length, &message, NULL, 0, &items_there, NULL, 0, &text_there) ==
          NELI_ROOM);
    CHECK(items_there == item_count && text_there == text_size);
}

/* ---- Bytes behind the attributes of a list */

/* A link of linux/if_link.h: IFLA_LINKINFO (18) with IFLA_INFO_KIND (1) and IFLA_INFO_DATA (2), in which is
 * IFLA_VLAN_ID (1). Behind the attributes of each of the three lists stand bytes that are none, in the message's own
 * those of an IFLA_IFNAME (3) that states 12 bytes and has 6. Comments have the place at which a line begins. */
static const uint8_t link_with_rests[] = {
    82, 0, 0, 0, NEWLINK, 0, 0, 0, 9, 0, 0, 0, 0, 0, 0, 0, /* a header of 16 bytes */
    0, 0, 0, 0, 7, 0, 0, 0, 0, 0, 0, 0, 0, 0, 0, 0, /* struct ifinfomsg */
    34, 0, 18, 0, /* 32 */
    9, 0, 1, 0, 'v', 'l', 'a', 'n', 0, 0, 0, 0, /* 36 */
    15, 0, 2, 0, /* 48 */
    6, 0, 1, 0, 5, 0, 0, 0, /* 52 */
    12, 0, 5, 0, /* 60: 3 bytes and a zero of padding */
    0xaa, 0xbb, 0, 0, /* 64: 2 bytes and padding */
    8, 0, 4, 0, 0xdc, 5, 0, 0, /* 68 */
    12, 0, 3, 0, 'x', 'y', 0, 0, /* 76: 6 bytes, and 2 past the message */
};

/* A route of linux/rtnetlink.h: RTA_MULTIPATH (9) with a hop (struct rtnexthop: its length, flags, a weight and a link)
 * in which is RTA_GATEWAY (5), and bytes behind that and behind the hop. */
static const uint8_t route_with_rests[] = {
    56, 0, 0, 0, 24, 0, 0, 0, 9, 0, 0, 0, 0, 0, 0, 0, /* RTM_NEWROUTE */
    2, 0, 0, 0, 254, 4, 0, 1, 0, 0, 0, 0, /* struct rtmsg: AF_INET */
    27, 0, 9, 0, /* 28 */
    17, 0, 0, 0, 3, 0, 0, 0, /* 32 */
    8, 0, 5, 0, 192, 0, 2, 1, /* 40 */
    0xff, 0, 0, 0, /* 48: 1 byte and padding */
    5, 0, 0, 0, /* 52: 3 bytes and padding */
};

struct wanted_item {
    const char *path, *value; /* no value: that of a list, which is not looked at */
    uint16_t number;
    uint8_t kind, depth;
    size_t payload, payload_length;
};

/* The first message of these bytes has these items. */
static void want_items(const uint8_t *sent, size_t sent_length, const struct wanted_item *wanted, size_t count) {
    struct neli_walk walk = {0, sent_length};
    struct neli_message one;
    CHECK(neli_next_message(sent, sent_length, &walk, &one) == NELI_ITEM);
    CHECK(read_items(&tables, 0, sent, sent_length, &one) == NELI_OK && item_count == count);
    for (size_t i = 0; i < item_count && i < count; i++) {
        const struct neli_named *it = &items[i];
        CHECK(has_path(i, wanted[i].path));
        CHECK(it->number == wanted[i].number && it->kind == wanted[i].kind && it->depth == wanted[i].depth);
        CHECK(it->payload == wanted[i].payload && it->payload_length == wanted[i].payload_length);
        CHECK(wanted[i].value == NULL || is_text(wanted[i].value, texts + it->value, it->value_length));
    }
}

/* Bytes that are no attribute have the path of the list behind whose attributes they stand; that of a message's own is
 * `body` (docs/TABLES.md). What comes behind the list stands where it would without them. */
static void check_rests(void) {
    static const struct wanted_item of_link[] = {
        {"IFLA_LINKINFO", NULL, LINKINFO, NELI_KIND_NEST, 1, 36, 30},
        {"IFLA_LINKINFO.IFLA_INFO_KIND", "\"vlan\"", 1, NELI_KIND_TEXT, 2, 40, 5},
        {"IFLA_LINKINFO.IFLA_INFO_DATA", NULL, 2, NELI_KIND_NEST, 2, 52, 11},
        {"IFLA_LINKINFO.IFLA_INFO_DATA.IFLA_VLAN_ID", "5", 1, NELI_KIND_U16, 3, 56, 2},
        {"IFLA_LINKINFO.IFLA_INFO_DATA", "{\"bytes\":\"0c0005\"}", 0, NELI_KIND_REST, 3, 60, 3},
        {"IFLA_LINKINFO", "{\"bytes\":\"aabb\"}", 0, NELI_KIND_REST, 2, 64, 2},
        {"IFLA_MTU", "1500", MTU, NELI_KIND_U32, 1, 72, 4},
        {"body", "{\"bytes\":\"0c0003007879\"}", 0, NELI_KIND_REST, 1, 76, 6},
    };
    static const struct wanted_item of_route[] = {
        {"RTA_MULTIPATH", NULL, 9, NELI_KIND_HOPS, 1, 32, 23},
        {"RTA_MULTIPATH.hop", NULL, 0, NELI_KIND_HOP, 2, 32, 17},
        {"RTA_MULTIPATH.hop.RTA_GATEWAY", "\"192.0.2.1\"", 5, NELI_KIND_ADDRESS, 3, 44, 4},
        {"RTA_MULTIPATH.hop", "{\"bytes\":\"ff\"}", 0, NELI_KIND_REST, 3, 48, 1},
        {"RTA_MULTIPATH", "{\"bytes\":\"050000\"}", 0, NELI_KIND_REST, 2, 52, 3},
    };
    want_items(link_with_rests, sizeof link_with_rests, of_link, sizeof of_link / sizeof *of_link);
    want_items(route_with_rests, sizeof route_with_rests, of_route, sizeof of_route / sizeof *of_route);
}

/* ---- Names and numbers */

/* The numbers are those of linux/rtnetlink.h, linux/if_link.h, linux/if_arp.h, net/if.h and linux/ethtool_netlink.h. */
static void check_numbers(void) {
    static const struct {
        const char *family, *list, *name;
        int32_t code;
        uint64_t number;
    } rows[] = {
        {"rt-link", NULL, "RTM_NEWLINK", NELI_ITEM, 16},
        {"rt-link", "", "RTM_SETLINK", NELI_ITEM, 19},
        {"rt-link", NULL, "RTNLGRP_LINK", NELI_ITEM, 1},
        {"rt-link", "link-attrs", "IFLA_MTU", NELI_ITEM, 4},
        {"rt-link", "linkinfo-attrs", "IFLA_INFO_KIND", NELI_ITEM, 1},
        {"rt-link", "ifinfo-flags", "running", NELI_ITEM, 0x40},
        {"rt-link", "hardware-type", "loopback", NELI_ITEM, 772},
        {"rt-link", "ifinfomsg", "ifi_index", NELI_ITEM, 4},
        {"ethtool", NULL, "ETHTOOL_MSG_RINGS_GET", NELI_ITEM, 15},
        {"ethtool", NULL, "ETHTOOL_MSG_RINGS_GET_REPLY", NELI_ITEM, 16},
        {"rt-link", NULL, "IFLA_MTU", NELI_END, 0},
        {"rt-link", "link-attrs", "RTM_NEWLINK", NELI_END, 0},
        {"rt-link", "link-attrs", "IFLA_MT", NELI_END, 0},
        {"rt-link", "RTM_NEWLINK", "IFLA_IFNAME", NELI_END, 0},
        {"rt-link", "nothing", "IFLA_MTU", NELI_END, 0},
        {"rt_link", NULL, "RTM_NEWLINK", NELI_END, 0},
        {"", NULL, "RTM_NEWLINK", NELI_END, 0},
        {"rt-link", NULL, "", NELI_END, 0},
    };
    for (size_t i = 0; i < sizeof rows / sizeof *rows; i++) {
        uint64_t number = 4711;
        CHECK(neli_number_of(&tables, rows[i].family, rows[i].list, rows[i].name, &number) == rows[i].code);
        CHECK(number == (rows[i].code == NELI_ITEM ? rows[i].number : 4711));
    }
    uint64_t number;
    CHECK(neli_number_of(NULL, "rt-link", NULL, "RTM_NEWLINK", &number) == NELI_NULL);
    CHECK(neli_number_of(&tables, NULL, NULL, "RTM_NEWLINK", &number) == NELI_NULL);
    CHECK(neli_number_of(&tables, "rt-link", NULL, NULL, &number) == NELI_NULL);
    CHECK(neli_number_of(&tables, "rt-link", NULL, "RTM_NEWLINK", NULL) == NELI_NULL);
}

/* A name in a room of each size: its beginning, and its length. */
static void want_name(const char *family, const char *list, uint64_t of, const char *wanted) {
    char name[64];
    size_t size = 4711;
    if (wanted == NULL) {
        CHECK(neli_name_of(&tables, family, list, of, name, sizeof name, &size) == NELI_END && size == 4711);
        return;
    }
    for (size_t room = 0; room < sizeof name; room++) {
        size_t kept = room < strlen(wanted) ? room : strlen(wanted);
        memset(name, '?', sizeof name);
        CHECK(neli_name_of(&tables, family, list, of, name, room, &size) == NELI_ITEM && size == strlen(wanted));
        CHECK(memcmp(name, wanted, kept) == 0 && name[kept] == '?');
    }
}

static void check_names(void) {
    char name[64];
    size_t size = 0;
    want_name("rt-link", NULL, 18, "RTM_GETLINK");
    want_name("rt-link", "link-attrs", 18, "IFLA_LINKINFO");
    want_name("rt-link", "ifinfo-flags", 0x40, "running");
    want_name("rt-link", "ifinfomsg", 8, "ifi_flags");
    want_name("ethtool", "", 15, "ETHTOOL_MSG_RINGS_GET");
    want_name("rt-link", NULL, 1, NULL); /* a group, and no message */
    want_name("rt-link", "link-attrs", 4000, NULL);
    want_name("rt-link", "nothing", 18, NULL);
    want_name("nothing", NULL, 18, NULL);
    CHECK(neli_name_of(&tables, NULL, NULL, 18, name, 64, &size) == NELI_NULL);
    CHECK(neli_name_of(&tables, "rt-link", NULL, 18, NULL, 64, &size) == NELI_NULL);
    CHECK(neli_name_of(&tables, "rt-link", NULL, 18, name, 64, NULL) == NELI_NULL);
    /* That of a message: of generic netlink that of its command, by its way. */
    CHECK(neli_message_name(&tables, 0, bytes, length, &message, name, sizeof name, &size) == NELI_ITEM);
    CHECK(is_text("RTM_NEWLINK", name, size));
    CHECK(neli_message_name(&tables, 0, bytes, 31, &message, name, sizeof name, &size) == NELI_PLACE);
    message.type = 4711;
    CHECK(neli_message_name(&tables, 0, bytes, length, &message, name, sizeof name, &size) == NELI_END && size == 11);
    CHECK(neli_tables_learn(&tables, 4711, "ethtool", 7) == NELI_OK);
    uint8_t rings[20] = {20, 0, 0, 0, 0x67, 0x12, 1, 0, 0, 0, 0, 0, 0, 0, 0, 0, 16, 1, 0, 0};
    struct neli_walk walk = {0, sizeof rings};
    CHECK(neli_next_message(rings, sizeof rings, &walk, &message) == NELI_ITEM);
    CHECK(neli_message_name(&tables, 16, rings, sizeof rings, &message, name, sizeof name, &size) == NELI_ITEM);
    CHECK(is_text("ETHTOOL_MSG_RINGS_SET", name, size));
    message.flags = 0;
    CHECK(neli_message_name(&tables, 16, rings, sizeof rings, &message, name, sizeof name, &size) == NELI_ITEM);
    CHECK(is_text("ETHTOOL_MSG_RINGS_GET_REPLY", name, size));
    CHECK(neli_message_name(&tables, 16, rings, sizeof rings, &message, name, 3, &size) == NELI_ITEM && size == 27);
    CHECK(neli_message_name(&tables, 16, rings, sizeof rings, NULL, name, 3, &size) == NELI_NULL);
    read_first();
}

/* One table alone: it has what it has among all, and nothing else. */
static void check_one_table(void) {
    struct neli_tables one = NELI_TABLES_CLOSED;
    uint64_t number = 0;
    char name[16];
    size_t size = 0;
    CHECK(neli_tables_add_built_in(&one, "rt_link") == NELI_STATE && neli_tables_new(&one) == NELI_OK);
    CHECK(neli_number_of(&one, "rt-link", NULL, "RTM_NEWLINK", &number) == NELI_END);
    CHECK(neli_tables_add_built_in(&one, "rt-link") == NELI_KIND && neli_tables_add_built_in(&one, "") == NELI_KIND);
    CHECK(read_items(&one, 0, bytes, length, &message) == NELI_KIND);
    CHECK(neli_tables_add_built_in(&one, "rt_link") == NELI_OK);
    CHECK(read_items(&one, 0, bytes, length, &message) == NELI_OK && has_path(1, "IFLA_MTU"));
    CHECK(neli_number_of(&one, "ethtool", NULL, "ETHTOOL_MSG_RINGS_GET", &number) == NELI_END);
    CHECK(neli_tables_add_built_in(&one, "ethtool") == NELI_OK && neli_tables_add_built_in(&one, "xfrm") == NELI_OK);
    CHECK(neli_number_of(&one, "ethtool", NULL, "ETHTOOL_MSG_RINGS_GET", &number) == NELI_ITEM && number == 15);
    CHECK(neli_number_of(&one, "xfrm", NULL, "XFRM_MSG_NEWSA", &number) == NELI_ITEM && number == 16);
    CHECK(neli_tables_add_built_in(NULL, "xfrm") == NELI_NULL && neli_tables_add_built_in(&one, NULL) == NELI_NULL);
    CHECK(neli_tables_free(&one) == NELI_OK);
    CHECK(neli_number_of(&one, "xfrm", NULL, "XFRM_MSG_NEWSA", &number) == NELI_STATE && number == 16);
    CHECK(neli_name_of(&one, "xfrm", NULL, 16, name, sizeof name, &size) == NELI_STATE);
    CHECK(neli_message_name(&one, 0, bytes, length, &message, name, sizeof name, &size) == NELI_STATE && size == 0);
}

/* The fields of struct ifinfomsg (linux/rtnetlink.h): of a link of index 7 of which nothing else is set. */
static void check_fields(void) {
    static const struct {
        const char *name, *value;
        size_t place, size;
    } rows[] = {{"ifi_family", "0", 0, 1}, {"ifi_type", NULL, 2, 2}, {"ifi_index", "7", 4, 4},
                {"ifi_flags", "[]", 8, 4}, {"ifi_change", "0", 12, 4}};
    enum { COUNT = sizeof rows / sizeof *rows };
    struct neli_named it, before;
    struct neli_message cut = message;
    char text[64];
    size_t size = 4711;
    for (size_t i = 0; i < COUNT; i++) {
        CHECK(neli_named_field(&tables, 0, bytes, length, &message, i, &it, text, sizeof text, &size) == NELI_ITEM);
        CHECK(it.number == 0 && it.kind == NELI_KIND_FIELD && it.depth == 0 && it.path == 0);
        CHECK(it.payload == 16 + rows[i].place && it.payload_length == rows[i].size);
        CHECK(is_text(rows[i].name, text, it.path_length) && it.value == it.path_length);
        CHECK(rows[i].value == NULL || is_text(rows[i].value, text + it.value, it.value_length));
        CHECK(size == it.value + it.value_length);
        text[3] = '?';
        before = it;
        CHECK(neli_named_field(&tables, 0, bytes, length, &message, i, &it, text, 3, &size) == NELI_ITEM);
        CHECK(text[3] == '?' && memcmp(text, rows[i].name, 3) == 0 && memcmp(&it, &before, sizeof it) == 0);
    }
    size = 4711;
    CHECK(neli_named_field(&tables, 0, bytes, length, &message, COUNT, &it, text, 64, &size) == NELI_END);
    CHECK(neli_named_field(&tables, 0, bytes, length, &message, SIZE_MAX, &it, text, 64, &size) == NELI_END);
    CHECK(neli_named_field(&tables, 0, bytes, 31, &message, 0, &it, text, 64, &size) == NELI_PLACE && size == 4711);
    /* Of a shorter body what is there. */
    cut.payload_length = 5;
    CHECK(neli_named_field(&tables, 0, bytes, length, &cut, 2, &it, text, 64, &size) == NELI_ITEM);
    CHECK(it.payload == 20 && it.payload_length == 1);
    CHECK(neli_named_field(&tables, 0, bytes, length, &cut, 4, &it, text, 64, &size) == NELI_ITEM);
    CHECK(it.payload == 28 && it.payload_length == 0);
    cut.type = 4711;
    CHECK(neli_named_field(&tables, 0, bytes, length, &cut, 0, &it, text, 64, &size) == NELI_END);
    CHECK(neli_named_field(&tables, 0, bytes, length, NULL, 0, &it, text, 64, &size) == NELI_NULL);
    CHECK(neli_named_field(&tables, 0, bytes, length, &message, 0, NULL, text, 64, &size) == NELI_NULL);
    CHECK(neli_named_field(&tables, 0, bytes, length, &message, 0, &it, NULL, 64, &size) == NELI_NULL);
}

/* A body that is shorter than the structure before its attributes. */
static void check_short_body(void) {
    struct neli_message cut = message;
    item_count = text_size = 4711;
    for (cut.payload_length = 0; cut.payload_length < 16; cut.payload_length++)
        CHECK(read_items(&tables, 0, bytes, length, &cut) == NELI_SHORT && item_count == 4711 && text_size == 4711);
    CHECK(read_items(&tables, 0, bytes, length, &cut) == NELI_OK && item_count == 0 && text_size == 0);
}

/* ---- A long message */

enum { LONGEST = 10000 };

/* A link with so many attributes; gives the seconds that its items take, the least of some runs. */
static double time_of(size_t attributes) {
    static uint8_t sent[32 + 8 * LONGEST];
    static struct neli_named all[LONGEST];
    static char text[64 * LONGEST];
    struct neli_writer writer = {0, 0};
    struct neli_walk walk = {0, 0};
    struct neli_message one;
    size_t there, there_size;
    double least = 1e9;
    CHECK(neli_begin_message(sent, sizeof sent, &writer, NEWLINK, 0, 9, 0) == NELI_OK);
    CHECK(neli_put_bytes(sent, sizeof sent, &writer, (const uint8_t[16]){0}, 16) == NELI_OK);
    for (size_t i = 0; i < attributes; i++)
        CHECK(neli_put_attribute(sent, sizeof sent, &writer, MTU, mtu, sizeof mtu) == NELI_OK);
    CHECK(neli_end_message(sent, sizeof sent, &writer) == NELI_OK);
    walk.end = writer.end;
    CHECK(neli_next_message(sent, writer.end, &walk, &one) == NELI_ITEM);
    for (int run = 0; run < 20; run++) {
        struct timespec begin, end;
        timespec_get(&begin, TIME_UTC);
        CHECK(neli_named_items(&tables, 0, sent, writer.end, &one, all, LONGEST, &there, text, sizeof text,
                               &there_size) == NELI_OK);
        timespec_get(&end, TIME_UTC);
        double took = (double)(end.tv_sec - begin.tv_sec) + 1e-9 * (double)(end.tv_nsec - begin.tv_nsec);
        if (took < least) least = took;
    }
    CHECK(there == attributes && all[there - 1].payload + 4 == writer.end);
    return least;
}

/* A hundred times the attributes take at most a thousand times the time: a walk anew for each takes ten thousand. */
static void check_time(void) {
    double few = time_of(100), many = time_of(LONGEST);
    printf("the items of 100 and of 10000 attributes: %.1f and %.1f us\n", 1e6 * few, 1e6 * many);
    CHECK(many <= 1000 * few);
}

/* A text in a room of each length: its beginning, and its length. */
static void want_cut(int32_t (*print)(char *out, size_t room, size_t *size)) {
    char whole[2048], cut[2048];
    size_t size = 0, again = 0;
    CHECK(print(whole, sizeof whole, &size) == NELI_OK && size < sizeof whole);
    for (size_t room = 0; room <= size; room++) {
        memset(cut, '?', sizeof cut);
        CHECK(print(cut, room, &again) == (room < size ? NELI_ROOM : NELI_OK) && again == size);
        CHECK(memcmp(cut, whole, room) == 0 && cut[room] == '?');
    }
}

static int32_t message_text(char *out, size_t room, size_t *size) {
    return neli_message_text(&tables, 0, bytes, length, &message, out, room, size);
}

static int32_t message_json(char *out, size_t room, size_t *size) {
    return neli_message_json(&tables, 0, bytes, length, &message, out, room, size);
}

static int32_t datagram_text(char *out, size_t room, size_t *size) {
    return neli_datagram_text(&tables, 0, bytes, length, out, room, size);
}

static int32_t datagram_json(char *out, size_t room, size_t *size) {
    return neli_datagram_json(&tables, 0, bytes, length, out, room, size);
}

static int32_t refusal_text(char *out, size_t room, size_t *size) {
    return neli_refusal_text(&tables, 0, bytes, length, &message, -22, "no such device type", 19, 52, out, room, size);
}

/* A datagram is its messages, each on lines of its own. */
static void check_texts(void) {
    char one[2048], all[2048];
    size_t size = 0, whole = 0;
    want_cut(message_text);
    want_cut(message_json);
    want_cut(datagram_text);
    want_cut(datagram_json);
    want_cut(refusal_text);
    CHECK(message_json(one, sizeof one, &size) == NELI_OK && datagram_json(all, sizeof all, &whole) == NELI_OK);
    CHECK(whole == size + 1 && memcmp(one, all, size) == 0 && all[size] == '\n');
    CHECK(message_text(one, sizeof one, &size) == NELI_OK && datagram_text(all, sizeof all, &whole) == NELI_OK);
    CHECK(whole == size && memcmp(one, all, size) == 0);
    one[size] = 0;
    CHECK(strstr(one, "RTM_NEWLINK") && strstr(one, "IFLA_MTU 1500") && strstr(one, "IFLA_INFO_KIND \"veth\""));
}

/* The attribute at each offset, and a refusal about it: the message's header has 16 bytes, and the body's 16. */
static void check_offsets(void) {
    static const struct {
        size_t offset;
        const char *path;
    } rows[] = {{0, NULL}, {31, NULL}, {32, "IFLA_IFNAME"}, {39, "IFLA_IFNAME"}, {40, "IFLA_MTU"},
                {48, "IFLA_LINKINFO"}, {52, "IFLA_LINKINFO.IFLA_INFO_KIND"}, {64, "4000"}, {72, NULL}};
    char path[64], line[128];
    size_t size = 0;
    for (size_t i = 0; i < sizeof rows / sizeof *rows; i++) {
        int32_t code = neli_path_at(&tables, 0, bytes, length, &message, rows[i].offset, path, sizeof path, &size);
        CHECK(code == (rows[i].path != NULL ? NELI_ITEM : NELI_END));
        CHECK(rows[i].path == NULL || is_text(rows[i].path, path, size));
        path[2] = '?';
        CHECK(neli_path_at(&tables, 0, bytes, length, &message, rows[i].offset, path, 2, &size) == code);
        CHECK(rows[i].path == NULL || (size == strlen(rows[i].path) && memcmp(path, rows[i].path, 2) == 0));
        CHECK(path[2] == '?');
    }
    CHECK(refusal_text(line, sizeof line, &size) == NELI_OK);
    CHECK(is_text("EINVAL: Invalid argument: no such device type: IFLA_LINKINFO.IFLA_INFO_KIND", line, size));
    CHECK(neli_refusal_text(&tables, 0, bytes, length, &message, -95, NULL, 0, 0, line, sizeof line, &size) == NELI_OK);
    CHECK(is_text("EOPNOTSUPP: Operation not supported", line, size));
    CHECK(neli_refusal_text(&tables, 0, bytes, length, &message, -4711, NULL, 0, 4, line, sizeof line, &size) == NELI_OK);
    CHECK(is_text("error 4711", line, size));
}

static void check_violations(void) {
    char text[128];
    size_t size = 0;
    CHECK(neli_check(&tables, 0, bytes, length, &message, text, sizeof text, &size) == NELI_OK);
    length = write_link(bytes, sizeof bytes, mtu, 3);
    read_first();
    CHECK(neli_check(&tables, 0, bytes, length, &message, text, sizeof text, &size) == NELI_VIOLATION);
    CHECK(size > 10 && memcmp(text, "IFLA_MTU: ", 10) == 0);
    size_t whole = size;
    text[4] = '?';
    CHECK(neli_check(&tables, 0, bytes, length, &message, text, 4, &size) == NELI_VIOLATION);
    CHECK(size == whole && memcmp(text, "IFLA?", 5) == 0);
    length = write_link(bytes, sizeof bytes, mtu, sizeof mtu);
    read_first();
}

/* Tables of texts: a family of the program's own, and the first bad line of one that is none. */
static void check_tables(void) {
    static const char text[] = "family example 31\nmessage EXAMPLE_CMD_NEW 16 nest=example\n"
                               "set example\nattr EXAMPLE_A_NUMBER 1 u16\n";
    static const char bad[] = "family example 31\nset example\nattr EXAMPLE_A_NUMBER\n";
    struct neli_tables own = NELI_TABLES_CLOSED;
    uint8_t sent[64];
    struct neli_writer writer = {0, 0};
    struct neli_walk walk = {0, 0};
    struct neli_message one;
    char path[64];
    size_t line = 0, size = 0;
    CHECK(neli_begin_message(sent, sizeof sent, &writer, 16, 0, 0, 0) == NELI_OK);
    CHECK(neli_put_attribute(sent, sizeof sent, &writer, 1, "\7", 2) == NELI_OK);
    CHECK(neli_end_message(sent, sizeof sent, &writer) == NELI_OK);
    walk.end = writer.end;
    CHECK(neli_next_message(sent, writer.end, &walk, &one) == NELI_ITEM);
    CHECK(neli_tables_new(&own) == NELI_OK && neli_tables_new(&own) == NELI_STATE);
    CHECK(read_items(&own, 31, sent, writer.end, &one) == NELI_KIND);
    CHECK(neli_tables_add(&own, bad, strlen(bad), &line, path, sizeof path, &size) == NELI_TABLE && line == 3);
    CHECK(is_text("a number is missing", path, size));
    CHECK(neli_tables_add(&own, bad, strlen(bad), &line, path, 8, &size) == NELI_TABLE && size == 19);
    CHECK(neli_tables_add(&own, text, strlen(text), &line, path, sizeof path, &size) == NELI_OK);
    CHECK(read_items(&own, 31, sent, writer.end, &one) == NELI_OK && item_count == 1 && has_path(0, "EXAMPLE_A_NUMBER"));
    CHECK(items[0].kind == NELI_KIND_U16 && items[0].payload == 20);
    CHECK(neli_tables_free(&own) == NELI_OK && neli_tables_free(&own) == NELI_OK);
    CHECK(neli_tables_add(&own, text, strlen(text), &line, path, sizeof path, &size) == NELI_STATE);
}

/* The number of a family of generic netlink: from the program, and from a message of the controller (number 16). */
static void check_learning(void) {
    static const uint8_t id[2] = {0x21};
    uint8_t said[128];
    struct neli_writer writer = {0, 0};
    struct neli_walk walk = {0, 0};
    struct neli_message one;
    CHECK(neli_begin_message(said, sizeof said, &writer, 16, 0, 0, 0) == NELI_OK);
    CHECK(neli_put_bytes(said, sizeof said, &writer, "\1\2\0", 4) == NELI_OK);
    CHECK(neli_put_attribute(said, sizeof said, &writer, 2, "ethtool", 8) == NELI_OK);
    CHECK(neli_put_attribute(said, sizeof said, &writer, 1, id, sizeof id) == NELI_OK);
    CHECK(neli_end_message(said, sizeof said, &writer) == NELI_OK);
    walk.end = writer.end;
    CHECK(neli_next_message(said, writer.end, &walk, &one) == NELI_ITEM);
    CHECK(read_items(&tables, 16, said, writer.end, &one) == NELI_OK);
    CHECK(has_path(0, "CTRL_ATTR_FAMILY_NAME") && items[0].payload == 24);
    CHECK(neli_tables_learn_from(&tables, 16, said, writer.end, &one) == NELI_OK);
    one.type = 0x21; /* as ETHTOOL_MSG_STRSET_GET, a request: 1 */
    one.flags = 1;
    CHECK(read_items(&tables, 16, said, writer.end, &one) == NELI_OK);
    CHECK(items[0].path_length > 8 && memcmp(texts, "ETHTOOL_", 8) == 0);
    one.type = 0x22;
    CHECK(read_items(&tables, 16, said, writer.end, &one) == NELI_KIND);
    CHECK(neli_tables_learn(&tables, 0x22, "ethtool", 7) == NELI_OK);
    CHECK(read_items(&tables, 16, said, writer.end, &one) == NELI_OK);
    one.payload_length = sizeof said;
    CHECK(neli_tables_learn_from(&tables, 16, said, writer.end, &one) == NELI_PLACE);
}

/* What is refused, and then writes nothing. */
static void check_refusals(void) {
    struct neli_tables closed = NELI_TABLES_CLOSED;
    struct neli_message past = message;
    char out[8] = "????????";
    size_t size = 5;
    past.payload_length = length;
    text_size = item_count = 5;
    CHECK(neli_message_json(&closed, 0, bytes, length, &message, out, 8, &size) == NELI_STATE);
    CHECK(neli_datagram_json(&closed, 0, bytes, length, out, 8, &size) == NELI_STATE);
    CHECK(neli_named_items(&closed, 0, bytes, length, &message, items, 8, &item_count, out, 8, &text_size) == NELI_STATE);
    CHECK(neli_check(&closed, 0, bytes, length, &message, out, 8, &size) == NELI_STATE);
    CHECK(neli_message_json(&tables, 0, bytes, length, &past, out, 8, &size) == NELI_PLACE);
    CHECK(neli_message_text(&tables, 0, bytes, length, &past, out, 8, &size) == NELI_PLACE);
    CHECK(neli_named_items(&tables, 0, bytes, length, &past, items, 8, &item_count, out, 8, &text_size) == NELI_PLACE);
    CHECK(neli_check(&tables, 0, bytes, length, &past, out, 8, &size) == NELI_PLACE);
    CHECK(neli_path_at(&tables, 0, bytes, length, &past, 32, out, 8, &size) == NELI_PLACE);
    CHECK(neli_refusal_text(&tables, 0, bytes, length, &past, -22, NULL, 0, 0, out, 8, &size) == NELI_PLACE);
    CHECK(memcmp(out, "????????", 8) == 0 && size == 5 && item_count == 5 && text_size == 5);
    CHECK(neli_message_json(NULL, 0, bytes, length, &message, out, 8, &size) == NELI_NULL);
    CHECK(neli_message_json(&tables, 0, NULL, length, &message, out, 8, &size) == NELI_NULL);
    CHECK(neli_message_json(&tables, 0, bytes, length, &message, NULL, 8, &size) == NELI_NULL);
    CHECK(neli_named_items(&tables, 0, bytes, length, &message, NULL, 8, &item_count, out, 8, &text_size) == NELI_NULL);
    CHECK(neli_named_items(&tables, 0, bytes, length, &message, items, SIZE_MAX / 8, &item_count, out, 8, &text_size) == NELI_NULL);
    CHECK(neli_named_items(&tables, 0, bytes, length, &message, items, 8, NULL, out, 8, &size) == NELI_NULL);
    CHECK(neli_tables_built_in(&tables) == NELI_STATE && neli_tables_built_in(NULL) == NELI_NULL);
}

int main(void) {
    CHECK(neli_tables_built_in(&tables) == NELI_OK);
    length = write_link(bytes, sizeof bytes, mtu, sizeof mtu);
    read_first();
    check_walk();
    check_rooms();
    check_rests();
    check_numbers();
    check_names();
    check_one_table();
    check_short_body();
    check_fields();
    check_time();
    check_texts();
    check_offsets();
    check_violations();
    check_tables();
    check_learning();
    check_refusals();
    CHECK(neli_tables_free(&tables) == NELI_OK);
    printf("%d failures\n", failures);
    return failures != 0;
}
