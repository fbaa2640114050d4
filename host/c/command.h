/* Running a command whose calls on netlink sockets are those of preload.c. */
#ifndef COMMAND_H
#define COMMAND_H

/* Becomes the command, with the variable set to the path of a file; where that fails it says why, and returns.
 * `neli_preload.so` stands beside this program, or in ../lib/neli from there. */
void run_preloaded(const char *program, const char *variable, const char *file, char **command);

#endif
