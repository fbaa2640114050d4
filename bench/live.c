/* Times the readers of bench/run-live on lists of the live kernel: `live FOLDER LINKS ROUTES SECONDS`.
 *
 * Each reader is a process, which reads a list for so many seconds and once at least, and reports what it had and what
 * one list took. The readers of FOLDER take turns, ROUNDS times, and a time is the median. Ends with status 1 where a
 * reader fails, where readers differ in messages or attributes, or where a list has less than was made. */
#include <stdbool.h>
#include <stdint.h>
#include <stdio.h>
#include <stdlib.h>
#include <string.h>
#include <sys/resource.h>
#include <sys/wait.h>
#include <unistd.h>

#ifndef ROUNDS
#define ROUNDS 7
#endif

/* What is measured of a list, in this order; seconds, and kilobytes. */
enum { USER, SYSTEM, BOTH, CLOCK, MEMORY, COLUMNS };

/* What a reader knows of a list. */
enum known { MESSAGES, ATTRIBUTES, SUM };

static const struct reader {
    const char *title, *program, *how;
    enum known known;
} readers[] = {
    {"libmnl", "mnl", "walk", SUM},
    {"this library, datagrams", "neli", "datagrams", SUM},
    {"this library, lent", "neli", "lent", SUM},
    {"this library, lent, 32 at once", "neli", "several", SUM},
    {"this library, owned", "neli", "owned", SUM},
    {"this library, Rust, lent", "neli_rust", "lent", SUM},
    {"this library, Rust, owned", "neli_rust", "owned", SUM},
    {"libnl", "nl", "walk", SUM},
    {"libnl-route, objects", "nl", "cache", MESSAGES},
    {"rtnetlink (Rust)", "rtnetlink_peer", "walk", ATTRIBUTES},
    {"pyroute2", "pyroute2_peer", "walk", ATTRIBUTES},
};

enum { READERS = sizeof readers / sizeof readers[0] };

struct counts {
    unsigned long long messages, attributes, sum;
};

/* What a reader measured in each round. */
struct result {
    bool is_there;
    struct counts counts;
    double rounds[COLUMNS][ROUNDS];
};

static void fail(const char *who, const char *what) {
    fprintf(stderr, "live: %s: %s\n", who, what);
    exit(1);
}

/* Starts a reader, whose output is read from the pipe. */
static pid_t start(const char *path, const struct reader *reader, const char *list, const char *seconds, FILE **out) {
    int ends[2];
    if (pipe(ends)) fail(reader->title, "no pipe");
    pid_t child = fork();
    if (child < 0) fail(reader->title, "no process");
    if (!child) {
        dup2(ends[1], 1);
        close(ends[0]);
        close(ends[1]);
        execl(path, path, reader->how, list, seconds, (char *)NULL);
        _exit(127);
    }
    close(ends[1]);
    *out = fdopen(ends[0], "r");
    return child;
}

static void run(const char *path, const struct reader *reader, const char *list, const char *seconds, int round,
                struct result *result) {
    struct counts counts;
    struct rusage use;
    FILE *out;
    int status;
    double user, system, clock;
    pid_t child = start(path, reader, list, seconds, &out);
    int found = fscanf(out, "%llu %llu %llu %lf %lf %lf", &counts.messages, &counts.attributes, &counts.sum, &user,
                       &system, &clock);
    if (wait4(child, &status, 0, &use) != child || status || found != 6) fail(reader->title, "it does not end well");
    fclose(out);
    if (round && memcmp(&counts, &result->counts, sizeof counts)) fail(reader->title, "it reads another list");
    double measured[COLUMNS] = {user, system, user + system, clock, (double)use.ru_maxrss};
    result->is_there = true;
    result->counts = counts;
    for (int i = 0; i < COLUMNS; i++) result->rounds[i][round] = measured[i];
}

static int compare(const void *one, const void *other) {
    double a = *(const double *)one, b = *(const double *)other;
    return (a > b) - (a < b);
}

static double median(const struct result *result, int column) {
    double sorted[ROUNDS];
    memcpy(sorted, result->rounds[column], sizeof sorted);
    qsort(sorted, ROUNDS, sizeof *sorted, compare);
    return sorted[ROUNDS / 2];
}

/* Whether a reader has what libmnl has, as far as it knows. */
static bool agrees(enum known known, const struct counts *counts, const struct counts *wanted) {
    return counts->messages == wanted->messages &&
           (known < ATTRIBUTES || counts->attributes == wanted->attributes) &&
           (known < SUM || counts->sum == wanted->sum);
}

static void print_row(const struct reader *reader, const struct result *result, const struct result *libmnl) {
    const struct counts *counts = &result->counts;
    double ms[COLUMNS], times[COLUMNS];
    for (int i = 0; i < COLUMNS; i++) {
        ms[i] = median(result, i) * 1e3;
        times[i] = median(result, i) / median(libmnl, i);
    }
    printf("%-31s %8llu ", reader->title, counts->messages);
    if (reader->known >= ATTRIBUTES) printf("%10llu", counts->attributes);
    else printf("%10s", "-");
    printf("  %9.2f %9.2f %9.2f %9.2f  %7.2f %7.2f %9.1f\n", ms[USER], ms[SYSTEM], ms[BOTH], ms[CLOCK], times[BOTH],
           times[CLOCK], median(result, MEMORY) / 1024);
}

/* Prints what each reader took; whether all have read the same. */
static bool tell(const char *list, const struct result *results) {
    bool are_same = true;
    printf("\n%-31s %8s %10s  %39s  %15s %9s\n", "", "", "", "milliseconds", "times libmnl", "MB");
    printf("%-31s %8s %10s  %9s %9s %9s %9s  %7s %7s %9s\n", list, "messages", "attributes", "user", "system", "both",
           "clock", "both", "clock", "peak");
    for (int i = 0; i < READERS; i++) {
        if (!results[i].is_there) continue;
        print_row(&readers[i], &results[i], &results[0]);
        if (agrees(readers[i].known, &results[i].counts, &results[0].counts)) continue;
        printf("%s has NOT READ what libmnl has\n", readers[i].title);
        are_same = false;
    }
    fflush(stdout);
    return are_same;
}

/* One list by all readers that are there, in turn. */
static bool measure(const char *folder, const char *list, unsigned long long made, const char *seconds) {
    static struct result results[READERS];
    char path[4096];
    memset(results, 0, sizeof results);
    for (int round = 0; round < ROUNDS; round++)
        for (int i = 0; i < READERS; i++) {
            snprintf(path, sizeof path, "%s/%s", folder, readers[i].program);
            if (!access(path, X_OK)) run(path, &readers[i], list, seconds, round, &results[i]);
        }
    if (results[0].counts.messages < made) fail(list, "the kernel has less than was made");
    return tell(list, results);
}

int main(int argc, char **argv) {
    if (argc != 5) {
        fputs("usage: live FOLDER LINKS ROUTES SECONDS\n", stderr);
        return 2;
    }
    bool are_same = measure(argv[1], "links", strtoull(argv[2], NULL, 10), argv[4]);
    are_same = measure(argv[1], "routes", strtoull(argv[3], NULL, 10), argv[4]) && are_same;
    return !are_same;
}
