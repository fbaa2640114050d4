/*
 * Preloaded into a program: refuses one of its requests for memory, the one whose number is in REFUSE, counted from 1,
 * and then makes the file that REFUSED names.
 */
#define _GNU_SOURCE
#include <dlfcn.h>
#include <fcntl.h>
#include <stddef.h>
#include <stdlib.h>
#include <unistd.h>

static long left; /* requests up to the one that is refused; 0 where none is */

__attribute__((constructor)) static void begin(void)
{
	const char *number = getenv("REFUSE");

	left = number ? atol(number) : 0;
}

static int is_refused(void)
{
	const char *name;
	int file;

	if (left == 0 || --left != 0)
		return 0;
	name = getenv("REFUSED");
	file = name ? open(name, O_CREAT | O_WRONLY, 0600) : -1;
	if (file >= 0)
		close(file);
	return 1;
}

void *malloc(size_t size)
{
	static void *(*next)(size_t);

	if (!next)
		next = (void *(*)(size_t))dlsym(RTLD_NEXT, "malloc");
	return is_refused() ? NULL : next(size);
}

void *realloc(void *old, size_t size)
{
	static void *(*next)(void *, size_t);

	if (!next)
		next = (void *(*)(void *, size_t))dlsym(RTLD_NEXT, "realloc");
	return is_refused() ? NULL : next(old, size);
}
