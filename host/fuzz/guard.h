/* Memory between two pages that nothing may touch, and bytes of a script. */
#ifndef GUARD_H
#define GUARD_H

#include "neli.h"
#include <stdio.h>
#include <stdlib.h>
#include <string.h>
#include <sys/mman.h>

#define PAGE 4096u
#define ROOM (16 * PAGE)

#define WANT(claim) want(claim, #claim, __LINE__)

static inline void want(bool holds, const char *claim, int line) {
    if (holds) return;
    fprintf(stderr, "line %d: not so: %s\n", line, claim);
    abort();
}

/* A room with such a page before and after it. */
static inline uint8_t *guarded(void) {
    uint8_t *at = mmap(NULL, ROOM + 2 * PAGE, PROT_NONE, MAP_PRIVATE | MAP_ANONYMOUS, -1, 0);
    WANT(at != MAP_FAILED && mprotect(at + PAGE, ROOM, PROT_READ | PROT_WRITE) == 0);
    return at + PAGE;
}

/* Bytes at the end of a room, or at its front. */
static inline uint8_t *placed(uint8_t *room, const uint8_t *bytes, size_t length, bool is_at_end) {
    uint8_t *at = is_at_end ? room + ROOM - length : room;
    if (length > 0) memcpy(at, bytes, length);
    return at;
}

/* The rest of a script. */
struct script {
    const uint8_t *at;
    size_t left;
};

/* Its next byte, or 0 at its end. */
static inline uint8_t next_byte(struct script *script) {
    if (script->left == 0) return 0;
    script->left--;
    return *script->at++;
}

static inline uint32_t u16_at(const uint8_t *at) {
    return at[0] | (uint32_t)at[1] << 8;
}

static inline uint32_t u32_at(const uint8_t *at) {
    return u16_at(at) | u16_at(at + 2) << 16;
}

static inline size_t padded(size_t length) {
    return (length + 3) / 4 * 4;
}

/* The model of a frame: if bytes begin with one whose header has so many bytes and states this length, NELI_ITEM, and
 * the size of the frame with its padding; else why not. */
static inline int32_t frame(size_t left, size_t head, size_t stated, size_t *size) {
    if (left == 0) return NELI_END;
    if (left < head) return NELI_SHORT;
    if (stated < head || stated > left) return NELI_LENGTH;
    *size = padded(stated);
    return *size > left ? NELI_SHORT : NELI_ITEM;
}

static inline size_t stated_at(const uint8_t *at, size_t left, size_t head) {
    if (left < head) return 0;
    return head == 16 ? u32_at(at) : u16_at(at);
}

#endif
