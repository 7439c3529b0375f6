/* Counts a program's requests for memory, and refuses the one of the number in REFUSED (0: none). How many there were is written
 * to the file COUNTED as the program ends, by `exit` or by `_exit`. `tools/refusals` loads it before the C library. Threads may ask at once. */
#define _GNU_SOURCE
#include <dlfcn.h>
#include <errno.h>
#include <stdio.h>
#include <stdlib.h>
#include <unistd.h>
#include <fcntl.h>
#include <sys/syscall.h>

static unsigned long count, refused;
static int is_on;

static int refuses(void)
{
    if (!is_on || __atomic_add_fetch(&count, 1, __ATOMIC_RELAXED) != refused)
        return 0;
    errno = ENOMEM;
    return 1;
}

/* the C library's own function of this name */
#define NEXT(name) \
    static __typeof__(&name) next; \
    if (!next) \
        next = (__typeof__(&name))dlsym(RTLD_NEXT, #name)

void *malloc(size_t size)
{
    NEXT(malloc);
    return refuses() ? NULL : next(size);
}

void *realloc(void *old, size_t size)
{
    NEXT(realloc);
    return refuses() ? NULL : next(old, size);
}

void *aligned_alloc(size_t alignment, size_t size)
{
    NEXT(aligned_alloc);
    return refuses() ? NULL : next(alignment, size);
}

int posix_memalign(void **to, size_t alignment, size_t size)
{
    NEXT(posix_memalign);
    return refuses() ? ENOMEM : next(to, alignment, size);
}

__attribute__((constructor)) static void begin(void)
{
    const char *number = getenv("REFUSED");
    refused = number ? strtoul(number, NULL, 10) : 0;
    is_on = 1;
}

__attribute__((destructor)) static void end(void)
{
    char text[24];
    const char *path = getenv("COUNTED");
    int file = path ? open(path, O_WRONLY | O_CREAT | O_TRUNC, 0600) : -1;
    is_on = 0;
    if (file >= 0) {
        if (write(file, text, snprintf(text, sizeof text, "%lu\n", count)) < 0)
            syscall(SYS_exit_group, 99);
        close(file);
    }
}

void _exit(int status)
{
    end();
    for (;;)
        syscall(SYS_exit_group, status);
}
