/*
 * Linked into a suite in the place of the kit's heap. A test whose name has `out_of_memory` runs once for each of its
 * requests for memory, in a process of its own in which that request is refused, up to the first run that has none left
 * to refuse. It passes where each run does. How many were refused stands on standard error.
 */
#define _GNU_SOURCE
#include <stdbool.h>
#include <stddef.h>
#include <stdio.h>
#include <stdlib.h>
#include <string.h>
#include <sys/mman.h>
#include <sys/wait.h>
#include <unistd.h>

/* What a request for memory comes to, as the kit's heap returns it. */
struct tried {
	size_t ok;
	void *p;
};

static long left;	 /* requests up to the one that is refused; 0 where none is */
static bool *is_refused; /* shared with the process that started this run */

static struct tried tried(void *p)
{
	static char nothing[16];

	return (struct tried){ p != NULL, p ? p : nothing };
}

static bool refuses(void)
{
	if (left == 0 || --left != 0)
		return false;
	*is_refused = true;
	return true;
}

struct tried rattle_alloc(size_t size, size_t align)
{
	return tried(refuses() ? NULL : malloc(size ? size : align));
}

struct tried rattle_realloc(void *p, size_t kept, size_t size, size_t align)
{
	(void)kept;
	return tried(refuses() ? NULL : realloc(p, size ? size : align));
}

void rattle_dealloc(void *p)
{
	free(p);
}

/* Runs the test with this request refused: returns in a new process, and there alone. */
static bool starts(long number, int *status)
{
	pid_t run = fork();

	if (run == 0) {
		left = number;
		return freopen("/dev/null", "w", stdout) != NULL;
	}
	if (run < 0 || waitpid(run, status, 0) < 0)
		exit(1);
	return false;
}

__attribute__((constructor)) static void sweep(int argc, char **argv)
{
	int failed = 0, status;
	long number;

	if (argc < 2 || !strstr(argv[1], "out_of_memory"))
		return;
	is_refused = mmap(NULL, sizeof(*is_refused), PROT_READ | PROT_WRITE, MAP_SHARED | MAP_ANONYMOUS, -1, 0);
	if (is_refused == MAP_FAILED)
		exit(1);
	for (number = 1; number == 1 || *is_refused; number++) {
		*is_refused = false;
		if (starts(number, &status))
			return;
		if (status == 0)
			continue;
		failed++;
		fprintf(stderr, "failed with its request %ld refused\n", number);
	}
	fprintf(stderr, "refused %ld requests\n", number - 2);
	if (failed)
		exit(1);
	/* the test itself: what it prints is read by whoever runs it, and what the other runs printed is not */
}
