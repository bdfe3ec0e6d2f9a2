/* Lets the call of malloc or realloc with the number FAIL_AT answer that there is no memory, counted from 1, and no other. It makes the
   file FAILED then: where that isn't made, no call has this number, and the program ends as it would without. For
   bench/want_of_memory. */
#define _GNU_SOURCE
#include <dlfcn.h>
#include <fcntl.h>
#include <stddef.h>
#include <stdlib.h>
#include <unistd.h>

static unsigned long calls;

static void note(void)
{
	const char *name = getenv("FAILED");
	int file = name ? open(name, O_WRONLY | O_CREAT, 0600) : -1;

	if (file >= 0)
		close(file);
}

static int fails(void)
{
	static unsigned long at;

	if (at == 0) {
		const char *text = getenv("FAIL_AT");
		at = text ? strtoul(text, NULL, 10) : (unsigned long)-1;
	}
	if (++calls != at)
		return 0;
	note();
	return 1;
}

void *malloc(size_t size)
{
	static void *(*real)(size_t);

	if (real == NULL)
		real = (void *(*)(size_t))dlsym(RTLD_NEXT, "malloc");
	return fails() ? NULL : real(size);
}

void *realloc(void *old, size_t size)
{
	static void *(*real)(void *, size_t);

	if (real == NULL)
		real = (void *(*)(void *, size_t))dlsym(RTLD_NEXT, "realloc");
	return fails() ? NULL : real(old, size);
}
