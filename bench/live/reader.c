/* `READER HOW links|routes SECONDS` reads a list until so many seconds have passed, and once at least. It prints what
 * the last one had and what one took: messages, attributes, their sum, and the seconds of user, of system and on the
 * clock. */
#include "reader.h"
#include <stdio.h>
#include <stdlib.h>
#include <string.h>
#include <sys/resource.h>
#include <sys/socket.h>
#include <time.h>

static const struct list links = {RTM_GETLINK, RTM_NEWLINK, AF_UNSPEC, sizeof(struct ifinfomsg), true};
static const struct list routes = {RTM_GETROUTE, RTM_NEWROUTE, AF_INET, sizeof(struct rtmsg), false};

void fail(const char *what) {
    fprintf(stderr, "live: %s\n", what);
    exit(1);
}

static double seconds(const struct timeval *time) {
    return (double)time->tv_sec + (double)time->tv_usec / 1e6;
}

static double clock_now(void) {
    struct timespec time;
    clock_gettime(CLOCK_MONOTONIC, &time);
    return (double)time.tv_sec + (double)time.tv_nsec / 1e9;
}

int main(int argc, char **argv) {
    if (argc != 4) fail("usage: READER HOW links|routes SECONDS");
    const struct list *list = strcmp(argv[2], "links") == 0 ? &links : &routes;
    struct counts counts;
    struct rusage before, after;
    int times = 0;
    getrusage(RUSAGE_SELF, &before);
    double begin = clock_now(), passed;
    do {
        counts = (struct counts){0};
        read_list(argv[1], list, &counts);
        times++;
        passed = clock_now() - begin;
    } while (passed < atof(argv[3]));
    getrusage(RUSAGE_SELF, &after);
    printf("%llu %llu %llu %.9f %.9f %.9f\n", (unsigned long long)counts.messages,
           (unsigned long long)counts.attributes, (unsigned long long)counts.sum,
           (seconds(&after.ru_utime) - seconds(&before.ru_utime)) / times,
           (seconds(&after.ru_stime) - seconds(&before.ru_stime)) / times, passed / times);
    return 0;
}
