/* Shared parts of the tests in C. A claim that does not hold ends the program with status 1. */
#ifndef TESTING_H
#define TESTING_H

#include "host.h"
#include "request.h"
#include <sys/types.h>

#define WANT(claim) want(claim, #claim, __FILE__, __LINE__)

void want(bool holds, const char *claim, const char *file, int line);

struct test {
    const char *name;
    void (*run)(void);
};

#define TEST(run) {#run, run}

/* The tests of a program, up to one without a name. `PROGRAM NAME [ROUNDS]` runs one, which makes and changes links:
 * NELI_OWN_NAMESPACE must confirm that it has a network namespace of its own, as `host/test` gives it. `PROGRAM` alone
 * prints the names. */
extern const struct test tests[];

/* How often a test does what it repeats. */
extern int rounds;

/* A host of routing, in the group of links or in none. */
struct neli_host *route_host(bool listens);

/* Sends a change, and waits for its acknowledgement. */
void done(struct neli_host *host, uint16_t type, uint16_t flags, struct body body);

/* Makes pairs of links. */
void make_pairs(struct neli_host *host, int count);

/* Removes a link by its name; of a pair both ends. */
void remove_link(struct neli_host *host, const char *name);

/* Sets the loopback link up or down. */
void set_loopback(struct neli_host *host, bool is_up);

/* Requests all links, or one. */
size_t send_dump(struct neli_host *host);
size_t send_question(struct neli_host *host, int index);

/* The number of remaining links in a dump, which is read to its end and closed. */
int count_links(struct neli_host *host, size_t dump);

/* The loopback link arrives, and then the acknowledgement; the handle is closed. */
void want_loopback(struct neli_host *host, size_t handle);

/* Hands in a message to the group of links, as the socket would. */
void hand_in(struct neli_host *host, uint16_t type, const void *body, size_t length);

/* How many of the sequence numbers below 10000 are in use. */
int in_use(struct neli_host *host);

/* A wait ends after a fifth of a second, as EAGAIN. */
void set_short_wait(struct neli_host *host);

void rest(long microseconds);

/* Sets the size of the socket's buffer, which the kernel doubles. */
void set_buffer(struct neli_host *host, int size);

/* Reads what comes to groups into a picture until a storm is over, with a rest after each message, and takes a new
 * picture after each loss, of which there has to be one; `storm` is the process that makes it. */
struct picture;
void follow(struct neli_host *host, pid_t storm, struct picture *picture, long microseconds,
            void (*take)(const struct neli_host *host, const struct neli_message *message, void *picture),
            int32_t (*resync)(struct neli_host *host, int times, struct picture *picture));

/* Whether a code means that a wait has ended, with this number. */
bool is_over(const struct neli_host *host, int32_t code, int fault);

#endif
