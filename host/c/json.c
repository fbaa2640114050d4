/* `json FILE..` prints the messages of recordings by name, as `neli_show json` does: a line of JSON for each, and one for
 * what is left of a datagram. The numbers of families of generic netlink are learnt first from all of a file. It ends
 * with status 1 where a file can't be read. */
#include "neli.h"
#include "pcap.h"
#include <stdio.h>
#include <stdlib.h>

static struct neli_tables tables = NELI_TABLES_CLOSED;

/* A whole file. */
static uint8_t *content(const char *path, size_t *size) {
    FILE *file = fopen(path, "rb");
    uint8_t *bytes = NULL;
    if (file == NULL) return NULL;
    if (fseek(file, 0, SEEK_END) == 0) {
        long end = ftell(file);
        rewind(file);
        *size = end < 0 ? 0 : (size_t)end;
        bytes = malloc(*size + 1);
        if (bytes != NULL) *size = fread(bytes, 1, *size, file);
    }
    fclose(file);
    return bytes;
}

/* A datagram by name, into a room that is as large as it says. */
static int print_datagram(const struct pcap_frame *frame) {
    size_t size = 0, again = 0;
    char *text;
    (void)neli_datagram_json(&tables, frame->protocol, frame->bytes, frame->length, NULL, 0, &size);
    text = malloc(size + 1);
    if (text == NULL) return 1;
    if (neli_datagram_json(&tables, frame->protocol, frame->bytes, frame->length, text, size, &again) == NELI_OK)
        fwrite(text, 1, again, stdout);
    free(text);
    return again != size;
}

/* Learns what the messages of the controller in a datagram say. */
static int learn_datagram(const struct pcap_frame *frame) {
    struct neli_walk walk = {0, frame->length};
    struct neli_message message;
    int32_t code = NELI_OK;
    while (code == NELI_OK && neli_next_message(frame->bytes, frame->length, &walk, &message) == NELI_ITEM)
        code = neli_tables_learn_from(&tables, frame->protocol, frame->bytes, frame->length, &message);
    return code != NELI_OK;
}

/* Gives why a file is none. */
static const char *each_datagram(const uint8_t *bytes, size_t size, int (*take)(const struct pcap_frame *), int *status) {
    struct pcap_file file = {.bytes = bytes, .size = size};
    struct pcap_frame frame;
    const char *why = bytes == NULL ? "it can't be read" : pcap_open(&file);
    while (why == NULL && *status == 0 && (why = pcap_next(&file, &frame)) == NULL && frame.bytes != NULL)
        *status = take(&frame);
    return why;
}

static int print_file(const char *path) {
    size_t size = 0;
    int status = 0;
    uint8_t *bytes = content(path, &size);
    const char *why = each_datagram(bytes, size, learn_datagram, &status);
    if (why == NULL && status == 0) why = each_datagram(bytes, size, print_datagram, &status);
    if (why != NULL) fprintf(stderr, "json: %s: %s\n", path, why);
    free(bytes);
    return why != NULL || status != 0;
}

int main(int argc, char **argv) {
    int status = neli_tables_built_in(&tables) != NELI_OK;
    for (int i = 1; i < argc && status == 0; i++) status = print_file(argv[i]);
    neli_tables_free(&tables);
    return status;
}
