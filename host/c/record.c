/* `record [-c COUNT] [-p PROTOCOL] [-m GROUP[,GROUP]..] FILE` writes what comes to these multicast groups into a pcap
 * file with netlink's link type, for `neli_show`, tshark and Wireshark: COUNT datagrams, or until SIGINT or SIGTERM.
 * The protocol is route, generic, or a number of linux/netlink.h; the groups of route are those of links, IPv4
 * addresses and IPv4 routes where none are named. Where some were lost it says so, goes on, and ends with status 4.
 *
 * `record FILE COMMAND [WORD]..` runs a command and writes what passes over its netlink sockets, for `replay`. The
 * status is that of the command. */
#define _GNU_SOURCE
#include "command.h"
#include "groups.h"
#include "pcap.h"
#include "request.h"
#include <errno.h>
#include <signal.h>
#include <stdio.h>
#include <stdlib.h>
#include <string.h>
#include <unistd.h>

static const char usage[] = "usage: record [-c COUNT] [-p PROTOCOL] [-m GROUP[,GROUP]..] FILE\n"
                            "       record FILE COMMAND [WORD]..\n";
static struct neli_host *host;

static void stop(int number) {
    (void)number;
    neli_host_stop(host);
}

static void end_by_signals(void) {
    struct sigaction action = {.sa_handler = stop};
    sigaction(SIGINT, &action, NULL);
    sigaction(SIGTERM, &action, NULL);
}

/* Writes what comes, and gives the status. */
static enum status record(int file, uint16_t protocol, unsigned long count) {
    enum status status = STATUS_COMPLETE;
    while (count > 0) {
        struct pcap_frame frame = {.way = PCAP_RECEIVED, .protocol = protocol};
        int32_t code = neli_host_receive(host, &frame.length, &frame.group);
        if (code == NELI_LINK && neli_host_fault(host) == ECANCELED) break;
        if (code == NELI_LINK && neli_host_fault(host) == ENOBUFS) {
            say(host, "record: lost some", code, NULL);
            status = STATUS_LOST;
            continue;
        }
        if (code != NELI_OK) fail(host, "record", code, NULL);
        frame.bytes = neli_host_datagram(host);
        if (frame.group != 0) frame.way = PCAP_GROUP;
        if (!pcap_put(file, &frame)) {
            fprintf(stderr, "record: %s\n", strerror(errno));
            return STATUS_NOT_BEGUN;
        }
        count--;
    }
    return status;
}

int main(int argc, char **argv) {
    struct groups groups = {.protocol = NETLINK_ROUTE};
    unsigned long count = -1ul;
    bool is_right = true;
    for (int option; is_right && (option = getopt(argc, argv, "+c:p:m:")) != -1;) {
        if (option == 'c') is_right = is_number(optarg, &count);
        else if (option == 'p') is_right = is_protocol(optarg, &groups.protocol);
        else is_right = option == 'm' && are_groups(optarg, &groups);
    }
    bool is_command = optind == 1 && argc > 2;
    if (!is_right || (!is_command && optind + 1 != argc) || !have_groups(&groups)) {
        fputs(usage, stderr);
        return STATUS_NOT_BEGUN;
    }
    int file = strcmp(argv[optind], "-") == 0 ? STDOUT_FILENO : pcap_create(argv[optind], false);
    if (file < 0 || !pcap_begin(file)) {
        fprintf(stderr, "record: %s\n", strerror(errno));
        return STATUS_NOT_BEGUN;
    }
    if (is_command) {
        close(file);
        run_preloaded("record", "NELI_RECORD", argv[1], argv + 2);
        return STATUS_NOT_BEGUN;
    }
    open_or_fail(&host, groups.protocol, groups.at, groups.count);
    end_by_signals();
    fputs("recording\n", file == STDOUT_FILENO ? stderr : stdout);
    fflush(stdout);
    enum status status = record(file, (uint16_t)groups.protocol, count);
    neli_host_close(host);
    if (close(file) != 0) {
        fprintf(stderr, "record: %s\n", strerror(errno));
        return STATUS_NOT_BEGUN;
    }
    return (int)status;
}
