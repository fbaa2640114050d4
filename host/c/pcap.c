#define _GNU_SOURCE
#include "pcap.h"
#include <arpa/inet.h>
#include <fcntl.h>
#include <linux/if_arp.h>
#include <string.h>
#include <sys/uio.h>
#include <time.h>

/* Times are in microseconds. The longest frame is what Wireshark reads, and the link type LINKTYPE_NETLINK. */
#define MAGIC 0xa1b2c3d4u
#define MAGIC_OF_NANOSECONDS 0xa1b23c4du
#define LONGEST 262144u
#define LINK_TYPE 253u

struct file_header {
    uint32_t magic;
    uint16_t major, minor;
    uint32_t zone, zero, longest, link_type;
};

struct frame_header {
    uint32_t seconds, microseconds, kept, length;
};

/* Its numbers have their high bytes first. */
struct cooked_header {
    uint16_t way, hardware, address_length;
    uint8_t address[8];
    uint16_t protocol;
};

int pcap_create(const char *path, bool goes_on) {
    return open(path, O_WRONLY | O_CREAT | O_APPEND | O_CLOEXEC | (goes_on ? 0 : O_TRUNC), 0666);
}

/* Writes parts by one call, so that no other process writes between them. A pipe takes less of them where a signal ends
 * its wait, and a disk that gets full: then the rest follows, or the next call says why it does not. */
static bool is_written(int file, struct iovec *parts, int count) {
    while (count > 0) {
        ssize_t written = writev(file, parts, count);
        if (written < 0) return false;
        size_t left = (size_t)written;
        for (; count > 0 && left >= parts->iov_len; count--) left -= (parts++)->iov_len;
        if (count == 0) break;
        parts->iov_base = (uint8_t *)parts->iov_base + left;
        parts->iov_len -= left;
    }
    return true;
}

bool pcap_begin(int file) {
    struct file_header header = {MAGIC, 2, 4, 0, 0, LONGEST, LINK_TYPE};
    struct iovec part = {&header, sizeof header};
    return is_written(file, &part, 1);
}

bool pcap_put(int file, const struct pcap_frame *frame) {
    struct timespec now;
    clock_gettime(CLOCK_REALTIME, &now);
    uint32_t length = (uint32_t)(sizeof(struct cooked_header) + frame->length);
    uint32_t address = htonl(frame->way == PCAP_GROUP ? frame->group : frame->way == PCAP_SENT ? frame->port : 0);
    struct frame_header header = {(uint32_t)now.tv_sec, (uint32_t)(now.tv_nsec / 1000), length, length};
    struct cooked_header cooked = {
        .way = htons((uint16_t)frame->way),
        .hardware = htons(ARPHRD_NETLINK),
        .protocol = htons(frame->protocol),
    };
    if (address != 0) {
        cooked.address_length = htons(sizeof address);
        memcpy(cooked.address, &address, sizeof address);
    }
    struct iovec parts[] = {
        {&header, sizeof header}, {&cooked, sizeof cooked}, {(void *)(uintptr_t)frame->bytes, frame->length}};
    return is_written(file, parts, 3);
}

static uint32_t number(const struct pcap_file *file, uint32_t read) {
    return file->is_turned ? __builtin_bswap32(read) : read;
}

const char *pcap_open(struct pcap_file *file) {
    struct file_header header;
    if (file->size < sizeof header) return "it is no pcap file";
    memcpy(&header, file->bytes, sizeof header);
    uint32_t turned = __builtin_bswap32(header.magic);
    file->is_turned = turned == MAGIC || turned == MAGIC_OF_NANOSECONDS;
    uint32_t magic = number(file, header.magic);
    if (magic != MAGIC && magic != MAGIC_OF_NANOSECONDS) return "it is no pcap file";
    if (number(file, header.link_type) != LINK_TYPE) return "its link type is not netlink's";
    file->place = sizeof header;
    return NULL;
}

const char *pcap_next(struct pcap_file *file, struct pcap_frame *frame) {
    struct frame_header header;
    struct cooked_header cooked;
    size_t left = file->size - file->place;
    *frame = (struct pcap_frame){0};
    if (left == 0) return NULL;
    if (left < sizeof header) return "it ends inside a frame";
    memcpy(&header, file->bytes + file->place, sizeof header);
    size_t kept = number(file, header.kept);
    if (left - sizeof header < kept) return "it ends inside a frame";
    if (kept < number(file, header.length)) return "a frame was cut when it was recorded";
    if (kept < sizeof cooked) return "a frame is not of netlink";
    const uint8_t *at = file->bytes + file->place + sizeof header;
    memcpy(&cooked, at, sizeof cooked);
    if (ntohs(cooked.hardware) != ARPHRD_NETLINK) return "a frame is not of netlink";
    uint16_t way = ntohs(cooked.way);
    frame->way = way == PCAP_RECEIVED || way == PCAP_GROUP ? (enum pcap_way)way : PCAP_SENT;
    uint32_t address = 0;
    if (ntohs(cooked.address_length) == sizeof address) memcpy(&address, cooked.address, sizeof address);
    if (frame->way == PCAP_GROUP) frame->group = ntohl(address);
    if (frame->way == PCAP_SENT) frame->port = ntohl(address);
    frame->protocol = ntohs(cooked.protocol);
    frame->bytes = at + sizeof cooked;
    frame->length = kept - sizeof cooked;
    file->place += sizeof header + kept;
    return NULL;
}
