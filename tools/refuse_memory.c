/* Refuses one of the allocations of a program: preloaded, it counts them, and answers the last one that it was given as if no memory
   were left.

       cc -shared -fPIC -o refuse_memory.so refuse_memory.c
       env LD_PRELOAD=./refuse_memory.so REFUSED_MEMORY=FILE PROGRAM

   FILE has a long: the number of that allocation, from 1. Each allocation takes one away. */

#define _GNU_SOURCE
#include <errno.h>
#include <fcntl.h>
#include <stdlib.h>
#include <sys/mman.h>
#include <unistd.h>

void *__libc_malloc(size_t size);
void *__libc_calloc(size_t count, size_t size);
void *__libc_realloc(void *old, size_t size);

static long *left;

__attribute__((constructor)) static void begin(void)
{
    const char *name = getenv("REFUSED_MEMORY");
    int file = name == NULL ? -1 : open(name, O_RDWR);
    void *page;

    if (file < 0)
        return;
    page = mmap(NULL, sizeof *left, PROT_READ | PROT_WRITE, MAP_SHARED, file, 0);
    close(file);
    if (page != MAP_FAILED)
        left = page;
}

static int is_refused(void)
{
    if (left == NULL || --*left != 0)
        return 0;
    errno = ENOMEM;
    return 1;
}

void *malloc(size_t size)
{
    return is_refused() ? NULL : __libc_malloc(size);
}

void *calloc(size_t count, size_t size)
{
    return is_refused() ? NULL : __libc_calloc(count, size);
}

void *realloc(void *old, size_t size)
{
    return is_refused() ? NULL : __libc_realloc(old, size);
}
