/* `resolve FAMILY` prints the number of a family of generic netlink, and those of its multicast groups. It ends with
 * status 3 if no family has the name, and 4 if the answer was lost. */
#include "request.h"
#include <linux/genetlink.h>
#include <linux/netlink.h>
#include <stdio.h>

/* A group's name and number, from the attribute that has both. */
static void print_group(const struct neli_host *host, const struct neli_attribute *group) {
    struct neli_walk fields;
    struct neli_attribute name, number;
    uint32_t id;
    if (neli_attributes_in(group, &fields) != NELI_OK) return;
    if (!neli_host_find(host, &fields, CTRL_ATTR_MCAST_GRP_NAME, &name) || neli_host_text(host, &name) == NULL) return;
    if (!neli_host_find(host, &fields, CTRL_ATTR_MCAST_GRP_ID, &number)) return;
    if (neli_get_u32(neli_host_item(host) + number.payload, number.payload_length, 0, &id) != NELI_OK) return;
    printf("group %s %u\n", neli_host_text(host, &name), id);
}

/* The controller's answer for a family. */
static void print_family(const struct neli_host *host, const struct neli_message *message, const char *family) {
    struct neli_walk walk, groups;
    struct neli_attribute found, group;
    uint16_t id;
    if (neli_attributes_of(message, sizeof(struct genlmsghdr), &walk) != NELI_OK) return;
    if (neli_host_find(host, &walk, CTRL_ATTR_FAMILY_ID, &found) &&
        neli_get_u16(neli_host_item(host) + found.payload, found.payload_length, 0, &id) == NELI_OK)
        printf("family %s %u\n", family, id);
    if (!neli_host_find(host, &walk, CTRL_ATTR_MCAST_GROUPS, &found)) return;
    if (neli_attributes_in(&found, &groups) != NELI_OK) return;
    while (neli_next_attribute(neli_host_item(host), neli_host_item_length(host), &groups, &group) ==
           NELI_ITEM) print_group(host, &group);
}

int main(int argc, char **argv) {
    struct neli_host *host;
    struct body body = {0};
    struct genlmsghdr ask = {.cmd = CTRL_CMD_GETFAMILY, .version = 2};
    struct neli_message message;
    struct neli_verdict verdict;
    size_t handle;
    if (argc != 2) {
        fputs("usage: resolve FAMILY\n", stderr);
        return STATUS_NOT_BEGUN;
    }
    open_or_fail(&host, NETLINK_GENERIC, NULL, 0);
    put(&body, &ask, sizeof ask);
    put_text(&body, CTRL_ATTR_FAMILY_NAME, argv[1]);
    int32_t code = neli_host_send(host, GENL_ID_CTRL, NLM_F_ACK, body.bytes, body.writer.end, &handle);
    if (code != NELI_OK) fail(host, "resolve", code, NULL);
    while ((code = neli_host_next(host, handle, &message)) == NELI_ITEM)
        if (message.type == GENL_ID_CTRL) print_family(host, &message, argv[1]);
    if (code == NELI_END) code = neli_host_verdict(host, handle, &verdict);
    if (code != NELI_OK) fail(host, "resolve", code, &message);
    neli_host_close(host);
    return 0;
}
