/* Requests by the names of tables on the kernel of this machine: written from JSON, checked before they are sent, and
 * diagnosed where the kernel refuses them. */
#include "testing.h"
#include <linux/if_link.h>
#include <linux/rtnetlink.h>
#include <stdio.h>
#include <string.h>
#include <sys/socket.h>

static struct neli_tables tables = NELI_TABLES_CLOSED;
static uint16_t protocol;
static uint8_t bytes[1024];
static size_t size;
static char text[256];

/* Sets the MTU of the loopback link by two bytes in place of four. */
static const char short_mtu[] = "{\"name\": \"RTM_SETLINK\","
                                " \"attributes\": {\"ifi_index\": 1, \"IFLA_MTU\": {\"bytes\": \"dc05\"}}}";

/* A host of a netlink family, and one or two tables. */
static struct neli_host *begin(int family, const char *table, const char *other) {
    struct neli_host *host;
    WANT(neli_tables_new(&tables) == NELI_OK && neli_tables_add_built_in(&tables, table) == NELI_OK);
    if (other != NULL) WANT(neli_tables_add_built_in(&tables, other) == NELI_OK);
    open_or_fail(&host, family, NULL, 0);
    protocol = (uint16_t)family;
    return host;
}

static void end(struct neli_host *host) {
    neli_tables_free(&tables);
    neli_host_close(host);
}

/* Writes the message that JSON asks for. */
static struct neli_message written(const char *json) {
    struct neli_message message;
    WANT(neli_write_json(&tables, protocol, json, strlen(json), bytes, sizeof bytes, &size) == NELI_OK);
    struct neli_walk walk = {0, size};
    WANT(neli_next_message(bytes, size, &walk, &message) == NELI_ITEM && walk.place == size);
    return message;
}

/* Sends what was written, and reads the first item of the answer. */
static int32_t answered(struct neli_host *host, const struct neli_message *sent, struct neli_message *message) {
    size_t handle;
    const uint8_t *body = bytes + sent->payload;
    WANT(neli_host_send(host, sent->type, sent->flags, body, sent->payload_length, &handle) == NELI_OK);
    int32_t code = neli_host_next(host, handle, message);
    WANT(neli_host_close_request(host, handle) == NELI_OK);
    return code;
}

/* What a parser refuses of what was written, in words; none if it passes. */
static const char *violation(enum neli_validation validation, const struct neli_message *sent) {
    size_t length = 0;
    int32_t code = neli_check_as(&tables, validation, protocol, bytes, size, sent, text, sizeof text - 1, &length);
    WANT(code == NELI_OK || code == NELI_VIOLATION);
    text[length] = 0;
    return code == NELI_OK ? NULL : text;
}

static void a_link_is_made_from_json(void) {
    struct neli_host *host = begin(NETLINK_ROUTE, "rt_link", NULL);
    struct neli_message sent, message;
    struct neli_attribute mtu;
    struct neli_walk walk;
    uint32_t number = 0;
    sent = written("{\"name\": \"RTM_NEWLINK\","
                   " \"flags\": [\"NLM_F_REQUEST\", \"NLM_F_ACK\", \"NLM_F_CREATE\", \"NLM_F_EXCL\"],"
                   " \"attributes\": {\"IFLA_IFNAME\": \"from_json\", \"IFLA_MTU\": 1400,"
                   " \"IFLA_LINKINFO\": {\"IFLA_INFO_KIND\": \"veth\"}}}");
    WANT(violation(NELI_STRICT, &sent) == NULL && violation(NELI_LIBERAL, &sent) == NULL);
    WANT(answered(host, &sent, &message) == NELI_ITEM && message.type == NLMSG_ERROR);
    sent = written("{\"name\": \"RTM_GETLINK\", \"attributes\": {\"IFLA_IFNAME\": \"from_json\"}}");
    WANT(answered(host, &sent, &message) == NELI_ITEM && message.type == RTM_NEWLINK);
    WANT(neli_attributes_of(&message, sizeof(struct ifinfomsg), &walk) == NELI_OK);
    WANT(neli_host_find(host, &walk, IFLA_MTU, &mtu));
    WANT(neli_get_u32(neli_host_item(host) + mtu.payload, mtu.payload_length, 0, &number) == NELI_OK);
    WANT(number == 1400);
    end(host);
}

/* The kernel reads the same request by either parser: by the strict one where the socket asks for strict checks. */
static void each_parser_is_as_the_kernel_has_it(void) {
    struct neli_host *host = begin(NETLINK_ROUTE, "rt_link", NULL);
    struct neli_message sent, message;
    sent = written("{\"name\": \"RTM_GETLINK\","
                   " \"attributes\": {\"ifi_index\": 1, \"4000\": {\"bytes\": \"00000000\"}}}");
    WANT(violation(NELI_LIBERAL, &sent) == NULL);
    WANT(answered(host, &sent, &message) == NELI_ITEM && message.type == RTM_NEWLINK);
    WANT(strcmp(violation(NELI_STRICT, &sent), "4000: unknown attribute") == 0);
    WANT(neli_host_set_strict(host) == NELI_OK);
    WANT(answered(host, &sent, &message) == NELI_KERNEL_ERROR);
    end(host);
}

/* Sends what JSON asks for, which the kernel refuses, and reads why in words. */
static void refuse(struct neli_host *host, const char *json) {
    struct neli_message message, sent = written(json);
    struct neli_answer answer;
    size_t length = 0;
    char same[sizeof text] = {0};
    WANT(answered(host, &sent, &message) == NELI_KERNEL_ERROR);
    neli_host_refusal(host, &tables, NELI_KERNEL_ERROR, &message, text, sizeof text);
    /* By the request as it was sent, in place of its echo. */
    WANT(neli_get_answer(host->item, host->item_length, &message, &answer) == NELI_OK);
    const uint8_t *list = host->item + answer.attributes.place;
    size_t room = answer.attributes.end - answer.attributes.place;
    WANT(neli_diagnosis(&tables, protocol, bytes, size, &sent, answer.code, list, room, same, sizeof same - 1,
                        &length) == NELI_OK);
    WANT(length == strlen(text) && strcmp(text, same) == 0);
}

/* Whether the line of the last refusal begins so. */
static bool begins(const char *line) {
    return strncmp(text, line, strlen(line)) == 0;
}

/* The limits are those of the kernel's policy. */
static void refusals_say_what_was_sent(void) {
    struct neli_host *host = begin(NETLINK_ROUTE, "rt_link", NULL);
    refuse(host, short_mtu);
    WANT(begins("ERANGE: Numerical result out of range: Attribute failed policy validation: IFLA_MTU = 0xdc05"));
    refuse(host, "{\"name\": \"RTM_NEWLINK\","
                 " \"attributes\": {\"ifi_index\": 1, \"IFLA_GSO_MAX_SIZE\": {\"bytes\": \"01000000\"}}}");
    WANT(begins("ERANGE: Numerical result out of range: integer out of range: IFLA_GSO_MAX_SIZE = 1, allowed "));
    WANT(strstr(text, "..4294967295") != NULL);
    refuse(host, "{\"name\": \"RTM_NEWLINK\", \"flags\": [\"NLM_F_REQUEST\", \"NLM_F_ACK\", \"NLM_F_CREATE\"],"
                 " \"attributes\": {\"IFLA_LINKINFO\": {\"IFLA_INFO_KIND\": \"nope\"}}}");
    WANT(strcmp(text, "EOPNOTSUPP: Operation not supported: Unknown device type") == 0);
    end(host);
}

/* The family of network devices has a number by which the controller answers. */
static void a_missing_attribute_is_named(void) {
    struct neli_host *host = begin(NETLINK_GENERIC, "nlctrl", "netdev");
    struct neli_message sent, message;
    sent = written("{\"name\": \"CTRL_CMD_GETFAMILY\", \"attributes\": {\"CTRL_ATTR_FAMILY_NAME\": \"netdev\"}}");
    WANT(answered(host, &sent, &message) == NELI_ITEM);
    WANT(neli_tables_learn_from(&tables, protocol, host->item, host->item_length, &message) == NELI_OK);
    refuse(host, "{\"name\": \"NETDEV_CMD_DEV_GET\"}");
    WANT(strcmp(text, "EINVAL: Invalid argument: missing NETDEV_A_DEV_IFINDEX") == 0);
    end(host);
}

/* Where a socket has errors capped the kernel echoes no body, so that no attribute has a name. */
static void a_capped_refusal(void) {
    struct neli_host *host = begin(NETLINK_ROUTE, "rt_link", NULL);
    static const char why[] = "ERANGE: Numerical result out of range: Attribute failed policy validation";
    struct neli_message message, sent = written(short_mtu);
    char same[sizeof text];
    int one = 1;
    WANT(setsockopt(host->link.fd, SOL_NETLINK, NETLINK_CAP_ACK, &one, sizeof one) == 0);
    WANT(answered(host, &sent, &message) == NELI_KERNEL_ERROR);
    neli_host_refusal(host, &tables, NELI_KERNEL_ERROR, &message, text, sizeof text);
    WANT(begins(why) && strstr(text, "IFLA_MTU") == NULL);
    neli_host_refusal(host, &tables, NELI_KERNEL_ERROR, &message, text, 7);
    WANT(strcmp(text, "ERANGE") == 0);
    /* Without tables, and after another code, it is what neli_host_explain writes. */
    neli_tables_free(&tables);
    neli_host_refusal(host, &tables, NELI_KERNEL_ERROR, &message, text, sizeof text);
    WANT(begins("Numerical result out of range: Attribute failed policy validation, at byte "));
    neli_host_refusal(host, NULL, NELI_SHORT, &message, text, sizeof text);
    neli_host_explain(host, NELI_SHORT, NULL, same, sizeof same);
    WANT(strcmp(text, same) == 0);
    end(host);
}

static void nothing_that_is_wrong_is_written(void) {
    static const char json[] = "{\"name\": \"RTM_GETLINK\", \"attributes\": {\"ifi_index\": 1}}";
    struct neli_host *host = begin(NETLINK_ROUTE, "rt_link", NULL);
    struct neli_message sent = written(json);
    uint8_t out[64];
    size_t length = 4711;
    WANT(size == 32);
    WANT(neli_write_json(&tables, protocol, json, strlen(json), out, 31, &length) == NELI_ROOM && length == 32);
    WANT(neli_write_json(&tables, protocol, "{]", 2, out, sizeof out, &length) == NELI_VIOLATION);
    WANT(length == 27 && memcmp(out, "no JSON at line 1, column 2", 27) == 0);
    length = 4711;
    WANT(neli_write_json(NULL, protocol, json, strlen(json), out, sizeof out, &length) == NELI_NULL);
    WANT(neli_write_json(&tables, protocol, NULL, 1, out, sizeof out, &length) == NELI_NULL);
    WANT(neli_write_json(&tables, protocol, json, strlen(json), NULL, 1, &length) == NELI_NULL);
    WANT(neli_write_json(&tables, protocol, json, strlen(json), out, sizeof out, NULL) == NELI_NULL);
    WANT(neli_check_as(&tables, NELI_STRICT, protocol, bytes, size, NULL, text, sizeof text, &length) == NELI_NULL);
    WANT(neli_check_as(&tables, (enum neli_validation)2, protocol, bytes, size, &sent, text, sizeof text, &length) ==
         NELI_KIND);
    WANT(neli_diagnosis(&tables, protocol, bytes, size, &sent, -22, NULL, 1, text, sizeof text, &length) == NELI_NULL);
    WANT(neli_diagnosis(&tables, protocol, bytes, 31, &sent, -22, NULL, 0, text, sizeof text, &length) == NELI_PLACE);
    neli_tables_free(&tables);
    WANT(neli_write_json(&tables, protocol, json, strlen(json), out, sizeof out, &length) == NELI_STATE);
    WANT(neli_check_as(&tables, NELI_STRICT, protocol, bytes, size, &sent, text, sizeof text, &length) == NELI_STATE);
    WANT(neli_diagnosis(&tables, protocol, bytes, size, &sent, -22, NULL, 0, text, sizeof text, &length) == NELI_STATE);
    WANT(length == 4711);
    end(host);
}

const struct test tests[] = {
    TEST(a_link_is_made_from_json),
    TEST(each_parser_is_as_the_kernel_has_it),
    TEST(refusals_say_what_was_sent),
    TEST(a_missing_attribute_is_named),
    TEST(a_capped_refusal),
    TEST(nothing_that_is_wrong_is_written),
    {0},
};
