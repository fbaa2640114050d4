/* `neli_stamp` prints the library's origin: the commit, the prover and its verdict, and checksums. */
#include "neli.h"
#include <stdio.h>

int main(void) {
    return fputs(neli_stamp(), stdout) < 0 || fflush(stdout) != 0;
}
