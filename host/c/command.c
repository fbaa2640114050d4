#define _GNU_SOURCE
#include "command.h"
#include <errno.h>
#include <limits.h>
#include <stdio.h>
#include <stdlib.h>
#include <string.h>
#include <unistd.h>

#define PRELOADED "neli_preload.so"

/* The path of what is loaded, or NULL. */
static const char *preloaded(void) {
    static const char *const places[] = {PRELOADED, "../lib/neli/" PRELOADED};
    static char own[PATH_MAX], path[PATH_MAX + 64];
    ssize_t length = readlink("/proc/self/exe", own, sizeof own - 1);
    char *name = length > 0 ? strrchr(own, '/') : NULL;
    if (name == NULL) return NULL;
    name[1] = 0;
    for (size_t i = 0; i < sizeof places / sizeof *places; i++) {
        snprintf(path, sizeof path, "%s%s", own, places[i]);
        if (access(path, R_OK) == 0) return path;
    }
    return NULL;
}

void run_preloaded(const char *program, const char *variable, const char *file, char **command) {
    static char all[2 * PATH_MAX], path[PATH_MAX];
    const char *library = preloaded(), *before = getenv("LD_PRELOAD");
    if (library == NULL || realpath(file, path) == NULL) {
        fprintf(stderr, "%s: %s: %s\n", program, library == NULL ? PRELOADED : file, strerror(errno));
        return;
    }
    snprintf(all, sizeof all, "%s%s%s", library, before != NULL ? ":" : "", before != NULL ? before : "");
    if (setenv("LD_PRELOAD", all, 1) == 0 && setenv(variable, path, 1) == 0) execvp(command[0], command);
    fprintf(stderr, "%s: %s: %s\n", program, command[0], strerror(errno));
}
