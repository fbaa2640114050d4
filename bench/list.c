/* Times `neli_tool list` on 64 MB beside libmnl's `mnl_nlmsg_fprintf`, and shows the memory that `list`, `list zero` and
 * `replay` take, a process for each run.
 *
 * A dump is repeated up to 64 MB. The peer reads the same file and prints each message; both print to /dev/null. Ends with
 * status 1 where `list` takes longer than libmnl, where it or `list zero` takes more than its input and 4 MB, or where
 * `replay` takes more than 150 bytes a message. */
#include <libmnl/libmnl.h>
#include <fcntl.h>
#include <stdbool.h>
#include <stdio.h>
#include <stdlib.h>
#include <string.h>
#include <sys/resource.h>
#include <sys/wait.h>
#include <unistd.h>

#ifndef ROUNDS
#define ROUNDS 3
#endif

enum { BYTES = 64 << 20, MESSAGES = 1000000, MOST = 150, MEGABYTES_BESIDE = 4 };

struct cost {
    double seconds;   /* processor time of the process */
    double megabytes; /* the most memory that it had */
};

static void fail(const char *what) {
    fprintf(stderr, "list: %s\n", what);
    exit(1);
}

/* The whole of a file, read at once, as a reader of one datagram does. */
static char *whole(int in, size_t *length) {
    off_t end = lseek(in, 0, SEEK_END);
    char *bytes = malloc(end);
    if (!bytes || lseek(in, 0, SEEK_SET)) fail("no input");
    *length = 0;
    for (ssize_t n; *length < (size_t)end && (n = read(in, bytes + *length, end - *length)) > 0;) *length += n;
    return bytes;
}

/* The peer: each message by libmnl, whose body begins with a header of so many bytes. */
static void print_by_libmnl(int in, size_t header) {
    size_t length;
    char *bytes = whole(in, &length);
    int left = length;
    const struct nlmsghdr *message = (const struct nlmsghdr *)bytes;
    for (; mnl_nlmsg_ok(message, left); message = mnl_nlmsg_next(message, &left))
        mnl_nlmsg_fprintf(stdout, message, message->nlmsg_len, header);
    exit(fflush(stdout) || left);
}

/* A program with two words at most, or with none the peer. */
static struct cost run(const char *tool, const char *first, const char *second, int in, size_t header) {
    int status, out = open("/dev/null", O_WRONLY);
    struct rusage use;
    pid_t child = fork();
    if (child < 0 || out < 0) fail("no process");
    if (!child) {
        dup2(out, 1);
        if (!tool) print_by_libmnl(in, header);
        dup2(in, 0);
        lseek(0, 0, SEEK_SET);
        execl(tool, tool, first, second, (char *)NULL);
        _exit(127);
    }
    close(out);
    if (wait4(child, &status, 0, &use) != child || status) fail("a run did not end with status 0");
    struct cost cost = {
        use.ru_utime.tv_sec + use.ru_stime.tv_sec + (use.ru_utime.tv_usec + use.ru_stime.tv_usec) / 1e6,
        use.ru_maxrss / 1024.0,
    };
    return cost;
}

static struct cost best(const char *tool, const char *first, const char *second, int in, size_t header) {
    struct cost least = run(tool, first, second, in, header);
    for (int i = 1; i < ROUNDS; i++) {
        struct cost next = run(tool, first, second, in, header);
        if (next.seconds < least.seconds) least.seconds = next.seconds;
        if (next.megabytes < least.megabytes) least.megabytes = next.megabytes;
    }
    return least;
}

/* A dump, repeated up to 64 MB: the file, its length and its messages. */
static int repeated(const char *name, size_t *length, size_t *messages) {
    int dump = open(name, O_RDONLY);
    FILE *out = tmpfile();
    size_t once, count = 0;
    if (dump < 0 || !out) fail(name);
    char *bytes = whole(dump, &once);
    int left = once;
    for (const struct nlmsghdr *m = (void *)bytes; mnl_nlmsg_ok(m, left); m = mnl_nlmsg_next(m, &left)) count++;
    *length = *messages = 0;
    for (; *length + once <= BYTES; *length += once, *messages += count)
        if (fwrite(bytes, 1, once, out) != once) fail("the input is not written");
    if (fflush(out)) fail("the input is not written");
    free(bytes);
    close(dump);
    return fileno(out);
}

/* A dump by all three; whether the targets are met. */
static bool compare(const char *tool, const char *name, const char *title, size_t header) {
    size_t length, messages;
    int in = repeated(name, &length, &messages);
    struct cost list = best(tool, "list", NULL, in, header), zero = best(tool, "list", "zero", in, header),
                libmnl = best(NULL, NULL, NULL, in, header);
    double each = 1e9 / messages, megabytes = length / 1048576.0;
    printf("%-7s %8zu  %7.0f %7.0f  %6.2f  %8.1f %8.1f %8.1f\n", title, messages, list.seconds * each,
           libmnl.seconds * each, list.seconds / libmnl.seconds, megabytes, list.megabytes, zero.megabytes);
    fflush(stdout);
    close(in);
    double most = megabytes + MEGABYTES_BESIDE;
    return list.seconds <= libmnl.seconds && list.megabytes <= most && zero.megabytes <= most;
}

/* A script of one handle, to which messages of 16 bytes come, a datagram each, and are read, one after the other. */
static bool replay(const char *tool) {
    FILE *out = tmpfile();
    if (!out) fail("no input");
    fputs("send 16 0 -\n", out);
    for (int i = 0; i < MESSAGES; i++) fputs("data 0 10000000100002000000000000000000\nread 1\n", out);
    if (fflush(out)) fail("the script is not written");
    struct cost cost = best(tool, "replay", NULL, fileno(out), 0);
    double bytes = cost.megabytes * 1048576 / MESSAGES;
    printf("\nreplay of %d messages: %.0f ns and %.0f bytes a message\n", MESSAGES, cost.seconds * 1e9 / MESSAGES, bytes);
    fclose(out);
    return bytes <= MOST;
}

int main(int argc, char **argv) {
    if (argc != 4) {
        fputs("usage: list NELI_TOOL LINKS ROUTES\n", stderr);
        return 2;
    }
    puts("                         ns a message   list /                  MB");
    puts("        messages     list  libmnl  libmnl     input     list list zero");
    bool met = compare(argv[1], argv[2], "links", 16);
    met = compare(argv[1], argv[3], "routes", 12) && met;
    met = replay(argv[1]) && met;
    puts(met ? "each target is met" : "a target is MISSED");
    return !met;
}
