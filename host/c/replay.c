/* `replay FILE COMMAND [WORD]..` runs a command whose netlink sockets play a recording, a pcap file with netlink's link
 * type, in place of the kernel: each request has to be one of the recording, but for sequence numbers and ports, and is
 * given the answers of the recording with its own. The command has to call the C library, as a shared library. It needs
 * no privilege. The status is that of the command, or 1 where it is not begun. */
#define _GNU_SOURCE
#include "command.h"
#include "play.h"
#include "request.h"
#include <errno.h>
#include <stdio.h>
#include <stdlib.h>
#include <string.h>

/* All bytes of a file; NULL where it can't be read. */
static uint8_t *read_file(const char *path, size_t *size) {
    FILE *file = fopen(path, "rb");
    uint8_t *bytes = NULL;
    *size = 0;
    for (size_t room = 1 << 16; file != NULL; room *= 2) {
        uint8_t *grown = realloc(bytes, room);
        if (grown == NULL) break;
        bytes = grown;
        *size += fread(bytes + *size, 1, room - *size, file);
        if (*size < room) break;
    }
    bool is_read = file != NULL && ferror(file) == 0 && feof(file) != 0;
    if (file != NULL) fclose(file);
    if (is_read) return bytes;
    free(bytes);
    return NULL;
}

int main(int argc, char **argv) {
    struct play play;
    size_t size;
    if (argc < 3 || argv[1][0] == '-') {
        fputs("usage: replay FILE COMMAND [WORD]..\n", stderr);
        return STATUS_NOT_BEGUN;
    }
    uint8_t *bytes = read_file(argv[1], &size);
    const char *why = bytes == NULL ? strerror(errno) : play_open(&play, bytes, size);
    if (why != NULL) {
        fprintf(stderr, "replay: %s: %s\n", argv[1], why);
        return STATUS_NOT_BEGUN;
    }
    run_preloaded("replay", "NELI_REPLAY", argv[1], argv + 2);
    return STATUS_NOT_BEGUN;
}
