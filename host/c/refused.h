/* Refuses a program one of its requests for memory, by the linker's --wrap. One file of a program has this. */
#ifndef REFUSED_H
#define REFUSED_H

#include <stdbool.h>
#include <stddef.h>

/* Which of the next requests is refused, from 1 on; 0 if none is. */
static unsigned left_to_refusal;

void *__real_malloc(size_t size);
void *__real_realloc(void *at, size_t size);
void *__wrap_malloc(size_t size);
void *__wrap_realloc(void *at, size_t size);

static bool is_refused(void) {
    return left_to_refusal > 0 && --left_to_refusal == 0;
}

void *__wrap_malloc(size_t size) {
    return is_refused() ? NULL : __real_malloc(size);
}

void *__wrap_realloc(void *at, size_t size) {
    return is_refused() ? NULL : __real_realloc(at, size);
}

/* Makes a call, and again where it was refused memory. */
#define CALLED(code, call)                                              \
    do {                                                                \
        code = (call);                                                  \
        if (code == NELI_MEMORY && left_to_refusal == 0) code = (call); \
        left_to_refusal = 0;                                            \
        WANT(code != NELI_MEMORY);                                      \
    } while (0)

#endif
