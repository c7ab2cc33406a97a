/* Fails one of the calls of a program on a file: preloaded, it counts them, and answers one of them with an input/output error.

       cc -shared -fPIC -o fail_calls.so fail_calls.c
       env LD_PRELOAD=./fail_calls.so FAILED_CALL=PLAN FAILED_FILE=FILE PROGRAM

   PLAN has five longs:

       the number of the call that fails, from 1; each call that reads, writes or syncs FILE takes one away
       whether it has its effect before it fails
       how many bytes one call reads or writes at most; 0 for all
       of the call that failed: 1 for a read, 2 for a write, 3 for a sync
       how many calls behind it wrote or synced FILE */

#define _GNU_SOURCE
#include <errno.h>
#include <fcntl.h>
#include <stdlib.h>
#include <sys/mman.h>
#include <sys/stat.h>
#include <sys/syscall.h>
#include <unistd.h>

enum kind { READ = 1, WRITE, SYNC };

struct plan {
    long left;
    long effect;
    long most;
    long failed;
    long later;
};

static struct plan *plan;
static struct stat watched;

__attribute__((constructor)) static void begin(void)
{
    const char *name = getenv("FAILED_CALL");
    const char *path = getenv("FAILED_FILE");
    int file = name == NULL || path == NULL || stat(path, &watched) != 0 ? -1 : open(name, O_RDWR);
    void *page;

    if (file < 0)
        return;
    page = mmap(NULL, sizeof *plan, PROT_READ | PROT_WRITE, MAP_SHARED, file, 0);
    close(file);
    if (page != MAP_FAILED)
        plan = page;
}

static int is_watched(int file)
{
    struct stat it;

    return plan != NULL && fstat(file, &it) == 0 && it.st_dev == watched.st_dev && it.st_ino == watched.st_ino;
}

/* Counts a call, and tells whether it is the one that fails. */
static int fails(int file, enum kind kind)
{
    if (!is_watched(file))
        return 0;
    if (plan->failed != 0 && kind != READ)
        plan->later++;
    if (--plan->left != 0)
        return 0;
    plan->failed = kind;
    return 1;
}

static int has_effect(int fails)
{
    return !fails || plan->effect != 0;
}

static long answer(int fails, long done)
{
    if (!fails)
        return done;
    errno = EIO;
    return -1;
}

static size_t cut(int file, size_t length)
{
    return is_watched(file) && plan->most != 0 && length > (size_t)plan->most ? (size_t)plan->most : length;
}

ssize_t read(int file, void *bytes, size_t length)
{
    int failed = fails(file, READ);

    return answer(failed, failed ? -1 : syscall(SYS_read, file, bytes, cut(file, length)));
}

ssize_t pread(int file, void *bytes, size_t length, off_t offset)
{
    int failed = fails(file, READ);

    return answer(failed, failed ? -1 : syscall(SYS_pread64, file, bytes, cut(file, length), offset));
}

ssize_t write(int file, const void *bytes, size_t length)
{
    int failed = fails(file, WRITE);

    return answer(failed, has_effect(failed) ? syscall(SYS_write, file, bytes, cut(file, length)) : -1);
}

ssize_t pwrite(int file, const void *bytes, size_t length, off_t offset)
{
    int failed = fails(file, WRITE);

    return answer(failed, has_effect(failed) ? syscall(SYS_pwrite64, file, bytes, cut(file, length), offset) : -1);
}

int fsync(int file)
{
    int failed = fails(file, SYNC);

    return (int)answer(failed, has_effect(failed) ? syscall(SYS_fsync, file) : -1);
}
