/* A library's version and origin. `dist` gives NELI_STAMP. */
#include "neli.h"

#ifndef NELI_STAMP
#define NELI_STAMP "neli " NELI_VERSION "\n"
#endif

const char *neli_version(void) {
    return NELI_VERSION;
}

const char *neli_stamp(void) {
    return NELI_STAMP;
}
