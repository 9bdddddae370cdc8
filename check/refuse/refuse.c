/* Refuses one growth of memory of the program that it is preloaded to: that of number REFUSE_AT,
   counted from 1 over all its threads. At the end of the program it writes to the file
   REFUSE_COUNT how many growths were asked for, and how many blocks weren't given back. */
#include <errno.h>
#include <fcntl.h>
#include <stdio.h>
#include <stdlib.h>
#include <sys/syscall.h>
#include <unistd.h>

extern void *__libc_malloc(size_t);
extern void *__libc_realloc(void *, size_t);
extern void *__libc_calloc(size_t, size_t);
extern void __libc_free(void *);

static unsigned long asked, at;
static long kept;

__attribute__((constructor)) static void begin(void)
{
    const char *text = getenv("REFUSE_AT");
    asked = 0;
    kept = 0;
    at = text ? strtoul(text, NULL, 10) : 0;
}

__attribute__((destructor)) static void end(void)
{
    const char *path = getenv("REFUSE_COUNT");
    char line[64];
    int length = snprintf(line, sizeof line, "%lu %ld\n", asked, kept);
    int file = path ? open(path, O_WRONLY | O_CREAT | O_TRUNC, 0600) : -1;
    if (file < 0 || write(file, line, length) != length || close(file))
        syscall(SYS_exit_group, 99);
}

/* How a program ends that started threads. */
void _exit(int status)
{
    end();
    syscall(SYS_exit_group, status);
    __builtin_unreachable();
}

static int is_refused(void)
{
    unsigned long number = __atomic_add_fetch(&asked, 1, __ATOMIC_SEQ_CST);
    if (number == at)
        errno = ENOMEM;
    return number == at;
}

static void *keep(void *block)
{
    if (block)
        __atomic_add_fetch(&kept, 1, __ATOMIC_SEQ_CST);
    return block;
}

void *malloc(size_t size)
{
    return is_refused() ? NULL : keep(__libc_malloc(size));
}

void *calloc(size_t count, size_t size)
{
    return is_refused() ? NULL : keep(__libc_calloc(count, size));
}

void *realloc(void *block, size_t size)
{
    if (is_refused())
        return NULL;
    return block ? __libc_realloc(block, size) : keep(__libc_malloc(size));
}

void free(void *block)
{
    if (block)
        __atomic_sub_fetch(&kept, 1, __ATOMIC_SEQ_CST);
    __libc_free(block);
}
