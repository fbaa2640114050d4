/* Messages from JSON: any text is refused with a reason, or becomes one message of a name, as long as was said, in a
 * room of any size; what is printed of it is written again as the same bytes. The strict parser takes nothing that the
 * liberal one refuses, and a diagnosis is the same in a room of any size. Bytes and texts lie beside pages that nothing
 * may touch. An input is a choice, a protocol, and a text; or a script, by which an object of names is made; or a
 * datagram, whose messages are printed and then written. */
#include "guard.h"

static uint8_t *in, *out, *text_at;
static struct neli_tables tables = NELI_TABLES_CLOSED;
static const uint16_t protocols[] = {0, 16, 12, 4, 6, 11, 15, 31};
static const char *const families[] = {"ethtool", "netdev", "devlink", "nl80211", "macsec", "wireguard", "team"};

static size_t least(size_t one, size_t other) {
    return one < other ? one : other;
}

/* ---- What a call writes */

/* A message, or why there is none. */
struct made {
    uint8_t bytes[ROOM];
    size_t size;
    int32_t code;
};

/* Writes a text, and again into a smaller room: a refusal has its beginning there, and a message nothing. */
static void make(struct made *made, uint16_t protocol, const char *json, size_t length, size_t cut) {
    size_t again = 0;
    made->size = 0;
    made->code = neli_write_json(&tables, protocol, json, length, out, ROOM, &made->size);
    WANT(made->code == NELI_OK || made->code == NELI_VIOLATION || made->code == NELI_ROOM);
    WANT(made->size > 0 && (made->code == NELI_ROOM) == (made->code != NELI_VIOLATION && made->size > ROOM));
    size_t whole = least(made->size, ROOM), room = cut % (whole + 1);
    memcpy(made->bytes, out, whole);
    memset(out, 0xaa, ROOM);
    uint8_t *to = out + ROOM - room;
    int32_t code = neli_write_json(&tables, protocol, json, length, to, room, &again);
    WANT(again == made->size && (room == ROOM || to[-1] == 0xaa));
    bool is_some = made->code == NELI_VIOLATION || room == made->size;
    if (is_some) WANT(code == made->code && memcmp(to, made->bytes, room) == 0);
    else WANT(code == NELI_ROOM && (room == 0 || (to[0] == 0xaa && to[room - 1] == 0xaa)));
}

/* What is printed of a message, written again; false where that is long, or refused. */
static bool make_again(struct made *made, uint16_t protocol, const uint8_t *bytes, size_t length,
                       const struct neli_message *message, size_t cut) {
    size_t size = 0;
    char *text = (char *)text_at;
    if (neli_message_json(&tables, protocol, bytes, length, message, text, ROOM, &size) != NELI_OK) return false;
    memmove(text + ROOM - size, text, size);
    make(made, protocol, text + ROOM - size, size, cut);
    return made->code == NELI_OK;
}

/* ---- What is said of a message */

static void try_parsers(uint16_t protocol, const uint8_t *bytes, size_t length, const struct neli_message *message) {
    size_t size = 0;
    char *to = (char *)out;
    int32_t liberal = neli_check_as(&tables, NELI_LIBERAL, protocol, bytes, length, message, to, ROOM, &size);
    int32_t strict = neli_check_as(&tables, NELI_STRICT, protocol, bytes, length, message, to, ROOM, &size);
    int32_t either = neli_check(&tables, protocol, bytes, length, message, to, ROOM, &size);
    WANT((liberal == NELI_OK || liberal == NELI_VIOLATION) && (strict == NELI_VIOLATION || strict == liberal));
    WANT(either == liberal || either == strict);
    int32_t none = neli_check_as(&tables, (enum neli_validation)2, protocol, bytes, length, message, to, ROOM, &size);
    WANT(none == NELI_KIND);
}

/* A refusal of a message by these attributes of an acknowledgement. */
static void try_diagnosis(uint16_t of, const uint8_t *bytes, size_t length, const struct neli_message *message,
                          struct script said) {
    size_t size = 0, again = 0;
    int32_t error = -(int32_t)(next_byte(&said) % 140);
    static char model[ROOM];
    char *to = (char *)out;
    const uint8_t *ext_ack = placed(text_at, said.at, said.left, true);
    int32_t code = neli_diagnosis(&tables, of, bytes, length, message, error, ext_ack, said.left, to, ROOM, &size);
    size_t whole = least(size, ROOM), room = said.left % (whole + 1);
    WANT(code == (size <= ROOM ? NELI_OK : NELI_ROOM));
    memcpy(model, to, whole);
    to += ROOM - room;
    code = neli_diagnosis(&tables, of, bytes, length, message, error, ext_ack, said.left, to, room, &again);
    WANT(code == (room < size ? NELI_ROOM : NELI_OK) && again == size && memcmp(to, model, room) == 0);
}

/* ---- Objects of names */

static const struct {
    uint16_t protocol;
    const char *name;
} messages[] = {{0, "RTM_NEWLINK"}, {0, "RTM_NEWADDR"}, {0, "RTM_NEWROUTE"}, {0, "RTM_NEWQDISC"}, {0, "RTM_NEWNEIGH"},
                {16, "ETHTOOL_MSG_RINGS_SET"}, {16, "NL80211_CMD_SET_WIPHY"}, {16, "WG_CMD_SET_DEVICE"},
                {16, "CTRL_CMD_GETFAMILY"}, {12, "NFT_MSG_NEWRULE"}, {4, "SOCK_DIAG_BY_FAMILY"}, {6, "XFRM_MSG_NEWSA"}};

static const char *const names[] = {
    "ifi_index", "ifi_flags", "IFLA_IFNAME", "IFLA_MTU", "IFLA_ADDRESS", "IFLA_LINKINFO", "IFLA_INFO_KIND",
    "IFLA_INFO_DATA", "IFLA_VLAN_ID", "IFLA_VLAN_FLAGS", "IFLA_VLAN_EGRESS_QOS", "IFLA_VLAN_QOS_MAPPING",
    "IFLA_AF_SPEC", "IFLA_BR_PRIORITY", "IFLA_VFINFO_LIST", "IFLA_VF_INFO", "IFLA_VF_MAC", "IFLA_PROP_LIST",
    "IFLA_ALT_IFNAME", "IFLA_STATS", "IFLA_XDP", "ifa_family", "ifa_prefixlen", "IFA_LOCAL", "IFA_FLAGS",
    "IFA_CACHEINFO", "rtm_family",
    "rtm_dst_len", "rtm_table", "RTA_DST", "RTA_VIA", "RTA_MULTIPATH", "rtnh_ifindex", "rtnh_hops", "RTA_GATEWAY",
    "RTA_METRICS", "RTAX_MTU", "RTA_ENCAP_TYPE", "RTA_ENCAP", "tcm_ifindex", "TCA_KIND", "TCA_OPTIONS", "NDA_DST",
    "NDA_LLADDR", "ETHTOOL_A_RINGS_HEADER", "ETHTOOL_A_HEADER_DEV_NAME", "ETHTOOL_A_HEADER_FLAGS", "ETHTOOL_A_RINGS_RX",
    "WGDEVICE_A_PEERS", "WGPEER_A_ENDPOINT", "WGDEVICE_A_PRIVATE_KEY", "NFTA_RULE_TABLE", "NFTA_RULE_EXPRESSIONS",
    "NFTA_LIST_ELEM", "NFTA_EXPR_NAME", "NFTA_EXPR_DATA", "CTRL_ATTR_FAMILY_NAME", "999", "1", "no_name"};

static const char *const values[] = {
    "\"vlan\"", "\"bridge\"", "\"veth\"", "\"up\"", "\"10.3.0.0\"", "\"2001:db8::1\"", "\"02:42:ac:11:00:02\"",
    "\"a_longer_name_of_20\"", "\"\\u0000\"", "\"0x10\"", "true", "false", "null", "\"fq_codel\"", "\"mpls\"", "[]",
    "{}",
    "{\"bytes\":\"0102030405060708\"}", "{\"bytes\":\"1\"}", "[\"up\",\"running\"]", "{\"value\":1,\"selector\":3}",
    "{\"address\":\"192.0.2.1\",\"port\":7}", "1.5", "-9223372036854775808", "18446744073709551615"};

static void put_members(FILE *to, struct script *script, int depth);

static void put_value(FILE *to, struct script *script, int depth) {
    uint8_t choice = next_byte(script);
    if (choice % 8 < 2) fprintf(to, "%d", (int)next_byte(script) - (choice == 1));
    else if (choice % 8 == 2) fprintf(to, "%u", (unsigned)next_byte(script) << next_byte(script) % 25);
    else if (choice % 8 < 5 && depth < 12) put_members(to, script, depth + 1);
    else if (choice % 8 == 5 && depth < 12) {
        fputc('[', to);
        for (int i = choice / 8 % 3; i >= 0; i--, fputs(i >= 0 ? "," : "", to)) put_value(to, script, depth + 1);
        fputc(']', to);
    } else fputs(values[next_byte(script) % (sizeof values / sizeof *values)], to);
}

static void put_members(FILE *to, struct script *script, int depth) {
    fputc('{', to);
    for (int i = next_byte(script) % 5; i > 0; i--) {
        fprintf(to, "\"%s\":", names[next_byte(script) % (sizeof names / sizeof *names)]);
        put_value(to, script, depth);
        if (i > 1) fputc(',', to);
    }
    fputc('}', to);
}

/* ---- Inputs */

/* A message that was written: it is one, of a name; and what is printed of it, written, stays as it is. */
static void try_written(const struct made *one, uint16_t protocol, size_t cut) {
    static struct made other, last;
    static char name[64];
    struct neli_walk walk = {0, one->size};
    struct neli_message message;
    size_t size = 0;
    WANT(neli_next_message(one->bytes, one->size, &walk, &message) == NELI_ITEM && walk.place == one->size);
    WANT(neli_message_name(&tables, protocol, one->bytes, one->size, &message, name, sizeof name, &size) == NELI_ITEM);
    try_parsers(protocol, one->bytes, one->size, &message);
    if (!make_again(&other, protocol, one->bytes, one->size, &message, cut)) return;
    walk = (struct neli_walk){0, other.size};
    WANT(neli_next_message(other.bytes, other.size, &walk, &message) == NELI_ITEM);
    if (make_again(&last, protocol, other.bytes, other.size, &message, cut))
        WANT(last.size == other.size && memcmp(last.bytes, other.bytes, last.size) == 0);
}

static void try_text(struct script text, uint16_t protocol, size_t cut) {
    static struct made made;
    make(&made, protocol, (const char *)placed(in, text.at, text.left, true), text.left, cut);
    if (made.code == NELI_OK) try_written(&made, protocol, cut);
}

/* An object that a script makes. */
static void try_names(struct script script, size_t cut) {
    static struct made made;
    static char text[ROOM];
    FILE *to = fmemopen(text, sizeof text, "w");
    uint8_t choice = next_byte(&script) % (sizeof messages / sizeof *messages);
    WANT(to != NULL);
    fprintf(to, "{\"name\":\"%s\",\"attributes\":", messages[choice].name);
    put_members(to, &script, 0);
    fputc('}', to);
    long length = ftell(to);
    if (fclose(to) != 0 || length >= (long)sizeof text) return;
    make(&made, messages[choice].protocol, (const char *)placed(in, (const uint8_t *)text, (size_t)length, true),
         (size_t)length, cut);
    if (made.code == NELI_OK) try_written(&made, messages[choice].protocol, cut);
}

static void try_datagram(struct script script, uint16_t protocol, size_t cut) {
    static struct made made;
    const uint8_t *bytes = placed(in, script.at, script.left, true);
    struct neli_walk walk = {0, script.left};
    struct neli_message message;
    for (int i = 0; i < 8 && neli_next_message(bytes, script.left, &walk, &message) == NELI_ITEM; i++) {
        struct script said = {script.at + walk.place, script.left - walk.place};
        try_parsers(protocol, bytes, script.left, &message);
        try_diagnosis(protocol, bytes, script.left, &message, said);
        if (make_again(&made, protocol, bytes, script.left, &message, cut)) try_written(&made, protocol, cut);
    }
}

int LLVMFuzzerTestOneInput(const uint8_t *data, size_t size);

int LLVMFuzzerTestOneInput(const uint8_t *data, size_t size) {
    if (in == NULL) {
        in = guarded(), out = guarded(), text_at = guarded();
        WANT(neli_tables_built_in(&tables) == NELI_OK);
        for (uint16_t i = 0; i < sizeof families / sizeof *families; i++)
            WANT(neli_tables_learn(&tables, 20 + i, families[i], strlen(families[i])) == NELI_OK);
    }
    if (size < 2 || size > ROOM) return 0;
    struct script script = {data, size};
    uint8_t choice = next_byte(&script), protocol = next_byte(&script);
    uint16_t of = protocols[protocol % (sizeof protocols / sizeof *protocols)];
    if (choice % 4 == 0) try_datagram(script, of, choice);
    else if (choice % 4 == 1) try_names(script, choice);
    else try_text(script, of, choice);
    return 0;
}
