/* `do [OPTION].. NAME [WORD]..`, `do [OPTION].. --json TEXT` and `do [OPTION].. --batch FILE` send requests by the
 * names of the tables, and print the replies as lines of JSON, as neli_show does. The protocol is that of the message's
 * name. A refusal is one line on stderr, which names the attribute. */
#define _GNU_SOURCE
#include "groups.h"
#include "request.h"
#include "words.h"
#include <errno.h>
#include <getopt.h>
#include <linux/genetlink.h>
#include <linux/netlink.h>
#include <stdarg.h>
#include <stdio.h>
#include <stdlib.h>
#include <string.h>

/* The maximum number of requests for a list that changes meanwhile. */
#define TIMES 5

/* A protocol that no table has. */
#define NO_PROTOCOL UINT16_MAX

static const char usage[] =
    "usage: neli_do [OPTION].. NAME [PATH[=VALUE]]..\n"
    "       neli_do [OPTION].. --json TEXT | --batch FILE\n"
    "Sends a request by the names of netlink's tables, and prints the replies as lines of JSON.\n"
    "\n"
    "  NAME             the message, as RTM_NEWLINK\n"
    "  PATH[=VALUE]     an attribute or a field, as ifi_index=3, IFLA_LINKINFO.IFLA_INFO_KIND=vlan\n"
    "  -j, --json TEXT  the request as an object of JSON, as neli_show prints one\n"
    "  -b, --batch FILE a request of JSON on each line of a file, or of the standard input (-)\n"
    "  -d, --dump       requests a list\n"
    "      --create, --excl, --replace, --append\n"
    "                   flags of the request\n"
    "  -n, --dry        prints the bytes of the request, sends nothing, and says what the kernel's parser refuses\n"
    "  -s, --strict     the kernel refuses what it does not use in a dump's request\n"
    "  -p, --protocol PROTOCOL   route, generic, or a number, where the name is no message of a table\n"
    "  -f, --family FAMILY       has the kernel load this family of generic netlink\n"
    "  -h, --help; --version\n"
    "\n"
    "Status: 0 done, 1 not sent, 2 a list changed meanwhile, 3 refused by the kernel, 4 a part was lost\n";

/* What the command line asks for. */
static struct {
    bool is_dump, is_dry, is_strict;
    uint16_t flags;
    int protocol; /* -1 for that of the name */
    const char *family, *json, *batch;
} asked = {.protocol = -1};

/* Bytes that are written, in a room that grows. */
struct room {
    char *bytes;
    size_t size, length;
};

/* A request as it is sent, but for its number and port. */
struct request {
    struct room written;
    uint16_t protocol;
    struct neli_message message;
};

static struct neli_tables tables = NELI_TABLES_CLOSED;
static struct neli_host *hosts[MAX_LINKS];
static bool has_learnt;    /* the families that the kernel has */
static unsigned long line; /* of a batch, or 0 */

/* A line on stderr. */
static enum status refuse(enum status status, const char *form, ...) {
    va_list words;
    fprintf(stderr, "%s: ", program_invocation_short_name);
    if (line > 0) fprintf(stderr, "line %lu: ", line);
    va_start(words, form);
    vfprintf(stderr, form, words);
    va_end(words);
    fputc('\n', stderr);
    return status;
}

/* The same for a code. */
static enum status refuse_code(const struct neli_host *host, int32_t code) {
    char text[512];
    neli_host_explain(host, code, NULL, text, sizeof text);
    return refuse(status_of(code), "%s", text);
}

/* The same for an answer about families, which ends the program. */
static void end_without_family(const char *name, int32_t code, const struct neli_message *message) {
    char text[512];
    neli_host_explain(hosts[NETLINK_GENERIC], code, message, text, sizeof text);
    exit((int)refuse(status_of(code), "%s: %s", name, text));
}

static void want_memory(const void *at) {
    if (at != NULL) return;
    exit((int)refuse(STATUS_NOT_BEGUN, "out of memory"));
}

/* Whether what was written had room; if not it has from now on. */
static bool had_room(struct room *room, size_t size) {
    room->length = size;
    if (size <= room->size) return true;
    room->bytes = realloc(room->bytes, size);
    want_memory(room->bytes);
    room->size = size;
    return false;
}

static struct neli_host *host_of(int protocol) {
    struct neli_host **host = &hosts[protocol];
    if (*host != NULL) return *host;
    open_or_fail(host, protocol, NULL, 0);
    int32_t code = asked.is_strict ? neli_host_set_strict(*host) : NELI_OK;
    if (code != NELI_OK) exit((int)refuse_code(*host, code));
    return *host;
}

/* ---- Replies ---- */

static void print_reply(FILE *out, const struct neli_host *host, uint16_t protocol,
                        const struct neli_message *message) {
    static struct room room;
    const uint8_t *bytes = neli_host_item(host);
    size_t length = neli_host_item_length(host), size = 0;
    if (message->type == NLMSG_ERROR || message->type == NLMSG_DONE) return;
    do
        (void)neli_message_json(&tables, protocol, bytes, length, message, room.bytes, room.size, &size);
    while (!had_room(&room, size));
    fwrite(room.bytes, 1, room.length, out);
    fputc('\n', out);
}

/* The kernel's refusal, by all that its message says. */
static enum status diagnose(const struct neli_host *host, const struct request *request,
                            const struct neli_message *said) {
    struct room room = {0};
    struct neli_answer answer = {0};
    const uint8_t *bytes = neli_host_item(host);
    const uint8_t *sent = (const uint8_t *)request->written.bytes;
    size_t size = 0, sent_length = request->written.length;
    if (neli_get_answer(bytes, neli_host_item_length(host), said, &answer) != NELI_OK)
        return refuse_code(host, NELI_KERNEL_ERROR);
    const uint8_t *attributes = bytes + answer.attributes.place;
    size_t length = answer.attributes.end - answer.attributes.place;
    do
        (void)neli_diagnosis(&tables, request->protocol, sent, sent_length, &request->message, answer.code, attributes,
                             length, room.bytes, room.size, &size);
    while (!had_room(&room, size));
    enum status status = refuse(STATUS_FAILED, "%.*s", (int)room.length, room.bytes);
    free(room.bytes);
    return status;
}

/* How an answer ended, by its code and the last message. */
static enum status ended(const struct neli_host *host, const struct request *request, int32_t code,
                         const struct neli_message *last) {
    if (code == NELI_OK) return STATUS_COMPLETE;
    return code == NELI_KERNEL_ERROR ? diagnose(host, request, last) : refuse_code(host, code);
}

/* ---- Sending ---- */

/* The lines of a list, of the protocol. */
struct lines {
    FILE *out;
    uint16_t protocol;
};

static void take(const struct neli_host *host, const struct neli_message *message, void *list) {
    struct lines *lines = list;
    if (message == NULL) rewind(lines->out);
    else print_reply(lines->out, host, lines->protocol, message);
}

static const uint8_t *body_of(const struct request *request) {
    return (const uint8_t *)request->written.bytes + request->message.payload;
}

/* Requests a list, and prints what came last. */
static enum status dump(struct neli_host *host, const struct request *request) {
    struct neli_message last = {0};
    char *text = NULL;
    size_t size = 0;
    struct lines lines = {open_memstream(&text, &size), request->protocol};
    struct neli_dump of = {.type = request->message.type, .flags = request->message.flags, .body = body_of(request),
                           .length = request->message.payload_length, .times = TIMES, .take = take, .list = &lines};
    want_memory(lines.out);
    int32_t code = neli_host_dump(host, &of, &last);
    if (fclose(lines.out) != 0) want_memory(NULL);
    fwrite(text, 1, size, stdout);
    free(text);
    return ended(host, request, code, &last);
}

/* Sends a request, and prints its replies as they come. */
static enum status send_one(struct neli_host *host, const struct request *request) {
    struct neli_message message = {0};
    struct neli_verdict verdict;
    size_t handle;
    int32_t code = neli_host_send(host, request->message.type, request->message.flags, body_of(request),
                                  request->message.payload_length, &handle);
    if (code != NELI_OK) return refuse_code(host, code);
    while ((code = neli_host_next(host, handle, &message)) == NELI_ITEM)
        print_reply(stdout, host, request->protocol, &message);
    if (code == NELI_END) code = neli_host_verdict(host, handle, &verdict);
    neli_host_close_request(host, handle);
    return ended(host, request, code, &message);
}

/* Prints a request's bytes as hexadecimal digits, and what the kernel's parser refuses of it. */
static enum status print_dry(const struct request *request) {
    struct room room = {0};
    const uint8_t *bytes = (const uint8_t *)request->written.bytes;
    size_t size = 0, length = request->written.length;
    int32_t code;
    for (size_t i = 0; i < length; i++) printf("%02x", bytes[i]);
    fputc('\n', stdout);
    do
        code = asked.is_strict ? neli_check_as(&tables, NELI_STRICT, request->protocol, bytes, length,
                                               &request->message, room.bytes, room.size, &size)
                               : neli_check(&tables, request->protocol, bytes, length, &request->message, room.bytes,
                                            room.size, &size);
    while (!had_room(&room, size));
    enum status status = STATUS_COMPLETE;
    if (code == NELI_VIOLATION) status = refuse(STATUS_FAILED, "%.*s", (int)room.length, room.bytes);
    free(room.bytes);
    return status;
}

/* ---- Families of generic netlink ---- */

static void learn(const struct neli_host *host, const struct neli_message *message, void *none) {
    (void)none;
    if (message == NULL || message->type != GENL_ID_CTRL) return;
    if (neli_tables_learn_from(&tables, NETLINK_GENERIC, neli_host_item(host), neli_host_item_length(host), message) !=
        NELI_OK)
        want_memory(NULL);
}

/* Learns the numbers of all families that the kernel has. */
static void learn_all(void) {
    struct genlmsghdr body = {.cmd = CTRL_CMD_GETFAMILY, .version = 2};
    struct neli_dump of = {.type = GENL_ID_CTRL, .body = &body, .length = sizeof body, .times = TIMES, .take = learn};
    struct neli_message last;
    int32_t code = neli_host_dump(host_of(NETLINK_GENERIC), &of, &last);
    if (code != NELI_OK) end_without_family("families", code, &last);
    has_learnt = true;
}

/* Learns the number of one, which the kernel loads if it is a module. */
static void learn_family(const char *name) {
    struct neli_host *host = host_of(NETLINK_GENERIC);
    struct genlmsghdr ask_for = {.cmd = CTRL_CMD_GETFAMILY, .version = 2};
    struct body body = {0};
    struct neli_message message;
    size_t handle;
    put(&body, &ask_for, sizeof ask_for);
    put_text(&body, CTRL_ATTR_FAMILY_NAME, name);
    int32_t code = neli_host_send(host, GENL_ID_CTRL, NLM_F_ACK, body.bytes, body.writer.end, &handle);
    if (code != NELI_OK) end_without_family(name, code, NULL);
    while ((code = neli_host_next(host, handle, &message)) == NELI_ITEM) learn(host, &message, NULL);
    if (code != NELI_END) end_without_family(name, code, &message);
    neli_host_close_request(host, handle);
}

/* ---- Writing ---- */

/* Writes an object of JSON as a message of a protocol: NELI_OK, or NELI_VIOLATION and why. */
static int32_t write_as(uint16_t protocol, const char *json, size_t length, struct room *out) {
    size_t size = 0;
    int32_t code;
    do
        code = neli_write_json(&tables, protocol, json, length, (uint8_t *)out->bytes, out->size, &size);
    while (!had_room(out, size));
    if (code != NELI_OK && code != NELI_VIOLATION) exit((int)refuse_code(NULL, code));
    return code;
}

/* Writes it as a message of the protocol whose tables have its name: of the first that says anything else of it than a
 * protocol without tables does. */
static int32_t write_by_name(const char *json, size_t length, struct request *request) {
    static const uint16_t protocols[] = {NETLINK_ROUTE, NETLINK_GENERIC, NETLINK_NETFILTER, NETLINK_SOCK_DIAG,
                                         NETLINK_XFRM, NETLINK_CONNECTOR};
    struct room unknown = {0}, *out = &request->written;
    int32_t code = write_as(NO_PROTOCOL, json, length, &unknown);
    bool is_found = false;
    for (size_t i = 0; !is_found && i < sizeof protocols / sizeof *protocols; i++) {
        request->protocol = protocols[i];
        code = write_as(protocols[i], json, length, out);
        bool is_other = out->length != unknown.length || memcmp(out->bytes, unknown.bytes, out->length) != 0;
        is_found = code == NELI_OK || is_other;
    }
    free(unknown.bytes);
    return code;
}

/* Writes it, where the tables take it; else `written` has why not. */
static int32_t write_request(const char *json, size_t length, struct request *request) {
    int32_t code;
    if (asked.protocol < 0) code = write_by_name(json, length, request);
    else code = write_as(request->protocol = (uint16_t)asked.protocol, json, length, &request->written);
    if (code == NELI_VIOLATION && request->protocol == NETLINK_GENERIC && !has_learnt) {
        learn_all();
        code = write_as(NETLINK_GENERIC, json, length, &request->written);
    }
    return code;
}

/* Sets the flags of a request that is written, as it is sent. */
static void set_flags(struct request *request) {
    struct neli_walk walk = {0, request->written.length};
    uint8_t *bytes = (uint8_t *)request->written.bytes;
    (void)neli_next_message(bytes, request->written.length, &walk, &request->message);
    uint16_t flags = request->message.flags | asked.flags | NLM_F_REQUEST | (asked.is_dump ? NLM_F_DUMP : 0);
    struct neli_message *message = &request->message;
    size_t length = message->payload_length;
    bool is_dump = neli_answering(request->protocol, message->type, flags, length) == NELI_ANSWERING_DUMP;
    message->flags = is_dump ? flags : flags | NLM_F_ACK;
    memcpy(bytes + offsetof(struct nlmsghdr, nlmsg_flags), &message->flags, sizeof message->flags);
}

/* Sends what is written, or prints it. */
static enum status finish(struct request *request) {
    set_flags(request);
    if (asked.is_dry) return print_dry(request);
    struct neli_host *host = host_of(request->protocol);
    const struct neli_message *message = &request->message;
    if (neli_answering(request->protocol, message->type, message->flags, message->payload_length) ==
        NELI_ANSWERING_DUMP)
        return dump(host, request);
    return send_one(host, request);
}

/* ---- The ways to ask ---- */

/* What becomes of a request that was written, or why it was not. */
static enum status outcome(int32_t code, struct request *request) {
    const struct room *written = &request->written;
    enum status status = code == NELI_OK ? finish(request)
                                         : refuse(STATUS_NOT_BEGUN, "%.*s", (int)written->length, written->bytes);
    free(written->bytes);
    return status;
}

static enum status do_json(const char *json, size_t length) {
    struct request request = {0};
    return outcome(write_request(json, length, &request), &request);
}

static int32_t write_words(const char *name, const struct word *words, size_t count, struct request *request) {
    char *json = NULL;
    size_t length = 0;
    FILE *out = open_memstream(&json, &length);
    want_memory(out);
    words_write(out, name, words, count);
    if (fclose(out) != 0) want_memory(NULL);
    int32_t code = write_request(json, length, request);
    free(json);
    return code;
}

/* The request of these words: a number that stands for a text is taken for one. */
static enum status do_words(const char *name, char **argv, size_t count) {
    struct word *words = calloc(count + 1, sizeof *words);
    struct request request = {0};
    int32_t code;
    want_memory(words);
    const struct word *both = words_read(words, argv, count);
    if (both != NULL)
        exit((int)refuse(STATUS_NOT_BEGUN, "%.*s: a value, and a nest", (int)both->path_length, both->path));
    do
        code = write_words(name, words, count, &request);
    while (code == NELI_VIOLATION && words_are_texts(words, count, request.written.bytes, request.written.length));
    free(words);
    return outcome(code, &request);
}

/* The requests of a file's lines, up to the first that is refused. */
static enum status do_batch(const char *path) {
    FILE *file = strcmp(path, "-") == 0 ? stdin : fopen(path, "r");
    if (file == NULL) return refuse(STATUS_NOT_BEGUN, "%s: %s", path, strerror(errno));
    enum status status = STATUS_COMPLETE;
    char *text = NULL;
    size_t room = 0;
    ssize_t length;
    while (status == STATUS_COMPLETE && (length = getline(&text, &room, file)) >= 0) {
        line++;
        while (length > 0 && strchr(" \t\r\n", text[length - 1]) != NULL) length--;
        if (length > 0) status = do_json(text, (size_t)length);
    }
    if (status == STATUS_COMPLETE && ferror(file)) status = refuse(STATUS_NOT_BEGUN, "%s: %s", path, strerror(errno));
    free(text);
    if (file != stdin) fclose(file);
    return status;
}

/* The options of the command line; false if they are others. */
static bool has_options(int argc, char **argv) {
    enum { CREATE = 256, EXCL, REPLACE, APPEND, VERSION };
    static const struct option options[] = {
        {"json", 1, NULL, 'j'}, {"batch", 1, NULL, 'b'}, {"dump", 0, NULL, 'd'}, {"create", 0, NULL, CREATE},
        {"excl", 0, NULL, EXCL}, {"replace", 0, NULL, REPLACE}, {"append", 0, NULL, APPEND}, {"dry", 0, NULL, 'n'},
        {"strict", 0, NULL, 's'}, {"protocol", 1, NULL, 'p'}, {"family", 1, NULL, 'f'}, {"help", 0, NULL, 'h'},
        {"version", 0, NULL, VERSION}, {0}};
    for (int option; (option = getopt_long(argc, argv, "+j:b:dnsp:f:h", options, NULL)) != -1;) switch (option) {
        case 'j': asked.json = optarg; break;
        case 'b': asked.batch = optarg; break;
        case 'd': asked.is_dump = true; break;
        case 'n': asked.is_dry = true; break;
        case 's': asked.is_strict = true; break;
        case 'f': asked.family = optarg; break;
        case CREATE: asked.flags |= NLM_F_CREATE; break;
        case EXCL: asked.flags |= NLM_F_EXCL; break;
        case REPLACE: asked.flags |= NLM_F_REPLACE; break;
        case APPEND: asked.flags |= NLM_F_APPEND; break;
        case 'p':
            if (!is_protocol(optarg, &asked.protocol)) return false;
            break;
        case 'h': fputs(usage, stdout); exit(STATUS_COMPLETE);
        case VERSION: puts("neli_do " NELI_VERSION); exit(STATUS_COMPLETE);
        default: return false;
        }
    bool has_name = optind < argc;
    return has_name + (asked.json != NULL) + (asked.batch != NULL) == 1;
}

int main(int argc, char **argv) {
    if (!has_options(argc, argv)) {
        fputs("usage: neli_do [OPTION].. NAME [PATH[=VALUE]].. | --json TEXT | --batch FILE (--help says more)\n",
              stderr);
        return STATUS_NOT_BEGUN;
    }
    if (neli_tables_built_in(&tables) != NELI_OK) want_memory(NULL);
    if (asked.family != NULL) learn_family(asked.family);
    enum status status;
    if (asked.json != NULL) status = do_json(asked.json, strlen(asked.json));
    else if (asked.batch != NULL) status = do_batch(asked.batch);
    else status = do_words(argv[optind], argv + optind + 1, (size_t)(argc - optind - 1));
    for (size_t i = 0; i < MAX_LINKS; i++) neli_host_close(hosts[i]);
    neli_tables_free(&tables);
    if (fflush(stdout) != 0) status = refuse(STATUS_LOST, "the output: %s", strerror(errno));
    return (int)status;
}
