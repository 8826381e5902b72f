/* A library that stands before the C library's own (LD_PRELOAD) and makes allocations fail: calls of malloc or realloc answer a
 * null pointer. FAIL_ALLOCATION is the number of the call that fails, counted from 1; or it is `script`, and all calls fail from
 * the first read of standard input on. FAIL_ALLOCATION_TOLD is the name of a file that is made when a call fails, or when
 * standard input is first read where FAIL_ALLOCATION is `script`; it gets a byte for each call that fails. */
#define _GNU_SOURCE
#include <dlfcn.h>
#include <errno.h>
#include <fcntl.h>
#include <stddef.h>
#include <stdlib.h>
#include <string.h>
#include <unistd.h>

static unsigned long calls;
static int script_is_read;

static int is_for_script(void)
{
    const char *wanted = getenv("FAIL_ALLOCATION");

    return wanted != NULL && strcmp(wanted, "script") == 0;
}

static int is_wanted(void)
{
    const char *wanted = getenv("FAIL_ALLOCATION");

    calls++;
    if (is_for_script())
        return script_is_read;
    return wanted != NULL && calls == strtoul(wanted, NULL, 10);
}

static void tell(size_t bytes)
{
    const char *told = getenv("FAIL_ALLOCATION_TOLD");
    int file;

    if (told == NULL)
        return;
    file = open(told, O_WRONLY | O_CREAT | O_APPEND, 0600);
    if (file < 0 || write(file, ".", bytes) < 0)
        abort();
    close(file);
}

static int fails(void)
{
    if (!is_wanted())
        return 0;
    tell(1);
    errno = ENOMEM;
    return 1;
}

ssize_t read(int file, void *buffer, size_t size)
{
    static ssize_t (*next)(int, void *, size_t);

    if (next == NULL)
        next = (ssize_t (*)(int, void *, size_t))dlsym(RTLD_NEXT, "read");
    if (file == STDIN_FILENO && !script_is_read && is_for_script()) {
        script_is_read = 1;
        tell(0);
    }
    return next(file, buffer, size);
}

void *malloc(size_t size)
{
    static void *(*next)(size_t);

    if (next == NULL)
        next = (void *(*)(size_t))dlsym(RTLD_NEXT, "malloc");
    return fails() ? NULL : next(size);
}

void *realloc(void *block, size_t size)
{
    static void *(*next)(void *, size_t);

    if (next == NULL)
        next = (void *(*)(void *, size_t))dlsym(RTLD_NEXT, "realloc");
    return fails() ? NULL : next(block, size);
}
