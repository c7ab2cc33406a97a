/* Kills a program before one of its system calls that write: preloaded, it counts these calls of each program to which it is
   given, and ends the one that would make the last of them.

       cc -shared -fPIC -o stop_writes.so stop_writes.c
       env LD_PRELOAD=./stop_writes.so STOP_WRITES=FILE PROGRAM

   FILE has a long: the number of that call. Each call takes one away. */

#define _GNU_SOURCE
#include <fcntl.h>
#include <signal.h>
#include <stdlib.h>
#include <sys/mman.h>
#include <sys/syscall.h>
#include <unistd.h>

static long *left;

__attribute__((constructor)) static void begin(void)
{
    const char *name = getenv("STOP_WRITES");
    int file = name == NULL ? -1 : open(name, O_RDWR);
    void *page;

    if (file < 0)
        return;
    page = mmap(NULL, sizeof *left, PROT_READ | PROT_WRITE, MAP_SHARED, file, 0);
    close(file);
    if (page != MAP_FAILED)
        left = page;
}

static void count(void)
{
    if (left != NULL && --*left == 0)
        kill(getpid(), SIGKILL);
}

ssize_t write(int file, const void *bytes, size_t length)
{
    count();
    return syscall(SYS_write, file, bytes, length);
}

ssize_t pwrite(int file, const void *bytes, size_t length, off_t offset)
{
    count();
    return syscall(SYS_pwrite64, file, bytes, length, offset);
}

ssize_t pwrite64(int file, const void *bytes, size_t length, off64_t offset)
{
    count();
    return syscall(SYS_pwrite64, file, bytes, length, offset);
}

int fsync(int file)
{
    count();
    return syscall(SYS_fsync, file);
}

int fdatasync(int file)
{
    count();
    return syscall(SYS_fdatasync, file);
}
