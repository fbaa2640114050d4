/* Times the router of this library by the program `neli_tool replay`, and through the calls for C, a process for each
 * run.
 *
 * A script opens handles, hands in messages of 16 bytes, a datagram each, and reads them; through the calls also where
 * the router keeps them. Beside it stands libmnl's walk over the headers of a dump, in the same run. What the program
 * prints, and what the calls answer, is counted; where a count is not what it has to be, the driver ends with status 1,
 * and with 2 where all counts are right and a target of docs/SPEED.md is missed. */
#include "neli.h"
#include <libmnl/libmnl.h>
#include <stdbool.h>
#include <stdio.h>
#include <stdlib.h>
#include <string.h>
#include <sys/resource.h>
#include <sys/wait.h>
#include <time.h>
#include <unistd.h>

#ifndef ROUNDS
#define ROUNDS 3
#endif

enum { OPEN = 100000, MESSAGES = 1000000, STRAYS = 1000000 };

/* How many messages are lent at once. */
enum { ITEMS = 32 };

/* How many times libmnl's walk over a header a message may take, and opening or closing a handle. */
enum { MOST_OF_A_MESSAGE = 40, MOST_OF_A_HANDLE = 100 };

struct script {
    unsigned open;     /* handles that are opened first */
    unsigned messages; /* messages that come */
    unsigned over;     /* the handles that they are for, in turn; 0: strays, of which none is read */
    unsigned batch;    /* how many come before they are read */
    bool dropped;      /* they come to a group, after multicast was closed: read, cut, and given to nobody */
};

struct cost {
    double seconds; /* processor time of the process */
    long kilobytes; /* the most memory that it had */
};

static void fail(const char *what) {
    fprintf(stderr, "router: %s\n", what);
    exit(1);
}

/* One line of 16 bytes: a message of type 16 with flag MULTI, for this number. */
static void data(FILE *out, bool dropped, unsigned number) {
    fprintf(out, "data %d 1000000010000200%02x%02x%02x%02x00000000\n", dropped,
            number & 0xff, number >> 8 & 0xff, number >> 16 & 0xff, number >> 24);
}

static void write_script(FILE *out, const struct script *s) {
    for (unsigned i = 0; i < s->open; i++) fputs("send 16 0 -\n", out);
    if (s->dropped) fputs("close 0\n", out);
    for (unsigned i = 0; i < s->messages; i += s->batch) {
        for (unsigned k = i; k < i + s->batch; k++) data(out, s->dropped, s->over ? k % s->over : ~0u);
        for (unsigned k = i; s->over && k < i + s->batch; k++) fprintf(out, "read %u\n", k % s->over + 1);
    }
}

/* How many lines of the output begin with this word. */
static unsigned count(FILE *in, const char *word) {
    static char line[4096];
    unsigned found = 0;
    rewind(in);
    while (fgets(line, sizeof line, in)) found += !strncmp(line, word, strlen(word));
    return found;
}

/* How many messages a script reads. */
static unsigned items_of(const struct script *s) {
    return s->over && !s->dropped ? s->messages : 0;
}

/* What a process took, which has to end with status 0. */
static struct cost cost_of(pid_t child, const char *otherwise) {
    int status;
    struct rusage use;
    if (wait4(child, &status, 0, &use) != child || status) fail(otherwise);
    struct cost cost = {
        use.ru_utime.tv_sec + use.ru_stime.tv_sec + (use.ru_utime.tv_usec + use.ru_stime.tv_usec) / 1e6,
        use.ru_maxrss,
    };
    return cost;
}

static struct cost run(const char *tool, const struct script *s) {
    FILE *in = tmpfile(), *out = tmpfile();
    if (!in || !out) fail("no temporary file");
    write_script(in, s);
    if (fflush(in)) fail("the script is not written");
    rewind(in);
    pid_t child = fork();
    if (child < 0) fail("no process");
    if (!child) {
        dup2(fileno(in), 0);
        dup2(fileno(out), 1);
        lseek(0, 0, SEEK_SET);
        execl(tool, tool, "replay", (char *)NULL);
        _exit(127);
    }
    struct cost cost = cost_of(child, "neli_tool did not end with status 0");
    if (count(out, "sent ") != s->open) fail("not all handles were opened");
    if (count(out, "item ") != items_of(s)) fail("not each message was read once");
    if (count(out, "error ") || count(out, "refused ") || count(out, "bad ")) fail("something was refused");
    fclose(in);
    fclose(out);
    return cost;
}

/* ---- through the calls for C */

static size_t open_one(struct neli_router *router) {
    struct neli_sent sent;
    uint8_t out[16];
    if (neli_router_send(router, 16, 0, NULL, 0, out, sizeof out, &sent) != NELI_OK) fail("no handle");
    return sent.handle;
}

/* Hands in a message of type 16 with flag MULTI, for this number. */
static void hand_in(struct neli_router *router, bool dropped, uint32_t number) {
    static const uint32_t group = 1;
    uint8_t message[16] = {16, 0, 0, 0, 16, 0, 2, 0};
    memcpy(message + 8, &number, sizeof number);
    int32_t code = neli_router_datagram(router, message, sizeof message, &group, dropped);
    if (code != NELI_OK) fail("a datagram is refused");
}

/* Reads a message and its bytes; one that was dropped is not there. */
static unsigned read_one(struct neli_router *router, size_t handle) {
    struct neli_item item;
    uint8_t bytes[16];
    size_t length;
    int32_t code = neli_router_read(router, handle, &item);
    if (code == NELI_WAITS) return 0;
    if (code != NELI_ITEM || neli_router_item(router, bytes, sizeof bytes, &length) != NELI_OK || length != 16)
        fail("a message is not read");
    return 1;
}

/* Reads a message where the router keeps it. */
static unsigned lend_one(struct neli_router *router, size_t handle) {
    struct neli_lent lent;
    int32_t code = neli_router_lend(router, handle, &lent);
    if (code == NELI_WAITS) return 0;
    if (code != NELI_ITEM || lent.message.length != 16 || neli_router_pass(router, handle) != NELI_OK)
        fail("a message is not lent");
    return 1;
}

/* Reads the messages that wait for a handle where the router keeps them, as many by a call as there is room for. */
static unsigned lend_all(struct neli_router *router, size_t handle) {
    struct neli_lent items[ITEMS];
    unsigned all = 0;
    size_t count;
    int32_t code;
    while ((code = neli_router_lend_items(router, handle, items, ITEMS, &count)) == NELI_ITEM) {
        for (size_t i = 0; i < count; i++)
            if (items[i].message.length != 16) fail("a message is not lent");
        if (neli_router_pass_items(router, handle, count) != NELI_OK) fail("messages are not passed");
        all += (unsigned)count;
    }
    if (code != NELI_WAITS) fail("messages are not lent");
    return all;
}

/* How messages are read: one, or all that wait for a handle. */
typedef unsigned reader(struct neli_router *router, size_t handle);

/* Does what a script says, and ends the process. */
static void play(const struct script *s, reader *read) {
    struct neli_router router = NELI_ROUTER_CLOSED;
    size_t *handles = malloc(s->open * sizeof *handles);
    unsigned items = 0;
    if (!handles || neli_router_new(&router, 0) != NELI_OK) fail("no memory");
    for (unsigned i = 0; i < s->open; i++) handles[i] = open_one(&router);
    if (s->dropped) neli_router_close(&router, NELI_MULTICAST);
    for (unsigned i = 0; i < s->messages; i += s->batch) {
        for (unsigned k = i; k < i + s->batch; k++) hand_in(&router, s->dropped, s->over ? k % s->over : ~0u);
        unsigned reads = read == lend_all && s->over < s->batch ? s->over : s->batch;
        for (unsigned k = i; s->over && k < i + reads; k++) items += read(&router, handles[k % s->over]);
    }
    _exit(items != items_of(s));
}

static struct cost run_by(reader *read, const struct script *s) {
    pid_t child = fork();
    if (child < 0) fail("no process");
    if (!child) play(s, read);
    return cost_of(child, "not each message was read once through C");
}

/* The tool is not needed. */
static struct cost run_calls(const char *tool, const struct script *s) {
    (void)tool;
    return run_by(read_one, s);
}

static struct cost run_lent(const char *tool, const struct script *s) {
    (void)tool;
    return run_by(lend_one, s);
}

static struct cost run_lent_at_once(const char *tool, const struct script *s) {
    (void)tool;
    return run_by(lend_all, s);
}

/* ---- libmnl, and handles by themselves */

/* The processor time of this process, in nanoseconds. */
static double now(void) {
    struct timespec time;
    clock_gettime(CLOCK_PROCESS_CPUTIME_ID, &time);
    return time.tv_sec * 1e9 + time.tv_nsec;
}

/* What libmnl's walk over the headers of a dump takes for one of them, in the best of many rounds over a megabyte. */
static double header_time(const char *path) {
    enum { SIZE = 1 << 20, ROUNDS_OF_WALK = 200 };
    static uint8_t bytes[SIZE];
    FILE *in = fopen(path, "rb");
    size_t length = in ? fread(bytes, 1, SIZE, in) : 0, all = length;
    if (!length || length == SIZE) fail("the dump is not read");
    fclose(in);
    for (; all + length <= SIZE; all += length) memcpy(bytes + all, bytes, length);
    double best = 0;
    for (int i = 0; i < ROUNDS_OF_WALK; i++) {
        int left = (int)all;
        size_t count = 0, sum = 0;
        double start = now();
        const struct nlmsghdr *message = (const struct nlmsghdr *)bytes;
        for (; mnl_nlmsg_ok(message, left); message = mnl_nlmsg_next(message, &left)) {
            sum += message->nlmsg_len;
            count++;
        }
        double each = (now() - start) / (double)count;
        if (left || sum != all) fail("libmnl did not walk over the whole dump");
        if (!i || each < best) best = each;
    }
    return best;
}

/* What a handle takes: to open it; to close the oldest and open another; to close any, taken at random, and open another. */
struct handle_times {
    double opening, oldest, any;
};

/* Closes a handle and opens another, as many times as they are: the oldest ones in turn, or any; returns what one takes. */
static double change_handles(struct neli_router *router, size_t *handles, unsigned count, bool any) {
    uint32_t random = 1;
    double start = now();
    for (unsigned i = 0; i < count; i++) {
        random = random * 1664525 + 1013904223;
        size_t *one = &handles[any ? (random >> 8) % count : i];
        if (neli_router_close(router, *one) != NELI_OK) fail("a handle is not closed");
        *one = open_one(router);
    }
    return (now() - start) / count;
}

/* Opens so many handles, and changes them twice each way: the first time, in which tables still grow, is not counted. */
static struct handle_times time_handles(unsigned count) {
    struct neli_router router = NELI_ROUTER_CLOSED;
    struct handle_times times;
    size_t *handles = malloc(count * sizeof *handles);
    if (!handles || neli_router_new(&router, 0) != NELI_OK) fail("no memory");
    double start = now();
    for (unsigned i = 0; i < count; i++) handles[i] = open_one(&router);
    times.opening = (now() - start) / count;
    change_handles(&router, handles, count, false);
    times.oldest = change_handles(&router, handles, count, false);
    change_handles(&router, handles, count, true);
    times.any = change_handles(&router, handles, count, true);
    neli_router_free(&router);
    free(handles);
    return times;
}

/* ---- the table */

typedef struct cost runner(const char *tool, const struct script *s);

/* The best of some runs. */
static struct cost best(runner *run, const char *tool, struct script s) {
    struct cost least = run(tool, &s);
    for (int i = 1; i < ROUNDS; i++) {
        struct cost next = run(tool, &s);
        if (next.seconds < least.seconds) least.seconds = next.seconds;
        if (next.kilobytes < least.kilobytes) least.kilobytes = next.kilobytes;
    }
    return least;
}

/* A script, and the same one with its messages dropped; returns what a message of the first takes. */
static double compare_by(runner *run, const char *tool, struct script kept) {
    struct script dropped = kept;
    dropped.dropped = true;
    struct cost all = best(run, tool, kept), rest = best(run, tool, dropped);
    double each = 1e9 / kept.messages;
    printf(" %7.0f %7.0f %7.0f %7.1f", all.seconds * each, rest.seconds * each, (all.seconds - rest.seconds) * each,
           all.kilobytes / 1024.0);
    return all.seconds * each;
}

/* A line of the table, after its first numbers; what is read is also lent, and set beside a header. Returns whether the
 * target is met. */
static bool compare(const char *tool, double header, struct script kept) {
    compare_by(run, tool, kept);
    printf("  ");
    double read = compare_by(run_calls, tool, kept);
    printf("  ");
    double lent = compare_by(run_lent, tool, kept);
    printf("  ");
    double at_once = compare_by(run_lent_at_once, tool, kept);
    printf(" %5.0f %5.0f %5.0f\n", read / header, lent / header, at_once / header);
    fflush(stdout);
    return lent <= MOST_OF_A_MESSAGE * header;
}

static double lesser(double a, double b) { return a < b ? a : b; }

/* The table of handles; returns whether the target is met. */
static bool compare_handles(double header) {
    bool is_met = true;
    puts("\n    open   opening one   and closing the oldest   and closing any   times a header");
    for (unsigned count = 1000; count <= OPEN; count *= 10) {
        struct handle_times least = time_handles(count);
        for (int i = 1; i < ROUNDS; i++) {
            struct handle_times next = time_handles(count);
            least.opening = lesser(next.opening, least.opening);
            least.oldest = lesser(next.oldest, least.oldest);
            least.any = lesser(next.any, least.any);
        }
        printf("%8u %10.0f ns %21.0f ns %14.0f ns %6.0f %4.0f %4.0f\n", count, least.opening, least.oldest, least.any,
               least.opening / header, least.oldest / header, least.any / header);
        is_met = is_met && least.oldest <= MOST_OF_A_HANDLE * header && least.any <= MOST_OF_A_HANDLE * header;
    }
    return is_met;
}

/* The table of messages; returns whether the target is met. */
static bool compare_messages(const char *tool, double header) {
    static const struct { unsigned open, used; } handles[] = {{1, 1}, {1000, 1000}, {OPEN, 1}, {OPEN, 1000}, {OPEN, OPEN}};
    bool is_met = true;
    printf("%d messages of 16 bytes, a datagram each\n\n", MESSAGES);
    printf(" waiting     open  of them      neli_tool: ns a message      MB      through C: ns a message      MB"
           "           lent: ns a message      MB   lent, %2d at once: ns a message      MB  times a header\n", ITEMS);
    puts(" at most  handles     used      all dropped  differ     all        all dropped  differ     all"
         "        all dropped  differ     all        all dropped  differ     all   read  lent at once");
    for (unsigned batch = 1000; batch <= MESSAGES; batch *= 1000)
        for (unsigned i = 0; i < sizeof handles / sizeof handles[0]; i++) {
            struct script script = {handles[i].open, MESSAGES, handles[i].used, batch, false};
            printf("%8u %8u %8u ", batch, handles[i].open, handles[i].used);
            is_met = compare(tool, header, script) && is_met;
        }
    return is_met;
}

/* The table of strays, each of which goes to all open handles. */
static void compare_strays(const char *tool, double header) {
    printf("\n%d strays, of which none is read\n\n", STRAYS);
    puts("                      neli_tool: ns a stray        MB      through C: ns a stray        MB  times");
    puts("  strays     open      all dropped  differ     all        all dropped  differ     all  a header");
    for (unsigned open = 1; open <= OPEN; open = open == 1 ? 1000 : open * 100) {
        struct script script = {open, STRAYS, 0, STRAYS, false};
        printf("%8u %8u ", STRAYS, open);
        compare_by(run, tool, script);
        printf("  ");
        printf(" %5.0f\n", compare_by(run_calls, tool, script) / header);
        fflush(stdout);
    }
}

int main(int argc, char **argv) {
    if (argc != 3) {
        fputs("usage: router NELI_TOOL DUMP\n", stderr);
        return 1;
    }
    double header = header_time(argv[2]);
    printf("libmnl's walk over a header: %.1f ns\n", header);
    bool is_met = compare_messages(argv[1], header);
    compare_strays(argv[1], header);
    is_met = compare_handles(header) && is_met;
    return is_met ? 0 : 2;
}
