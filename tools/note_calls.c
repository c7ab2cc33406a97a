/* Notes the calls that write to a file, or sync it: preloaded, it goes on with each call of the program to which it is given, and
   puts what was written behind what is noted already.

       cc -shared -fPIC -o note_calls.so note_calls.c
       env LD_PRELOAD=./note_calls.so NOTE_CALLS=NOTES NOTE_FILE=FILE PROGRAM

   NOTES has of each call two longs, and the bytes of a write: where it begins in FILE, and how many bytes it has. A sync has -1
   and 0. Calls that fail aren't noted, and those on other files neither. */

#define _GNU_SOURCE
#include <fcntl.h>
#include <stdlib.h>
#include <sys/stat.h>
#include <sys/syscall.h>
#include <unistd.h>

static int notes = -1;
static struct stat noted;

__attribute__((constructor)) static void begin(void)
{
    const char *name = getenv("NOTE_CALLS");
    const char *file = getenv("NOTE_FILE");

    if (name != NULL && file != NULL && stat(file, &noted) == 0)
        notes = open(name, O_WRONLY | O_CREAT | O_APPEND | O_CLOEXEC, 0666);
}

static int is_noted(int file)
{
    struct stat it;

    return notes >= 0 && fstat(file, &it) == 0 && it.st_dev == noted.st_dev && it.st_ino == noted.st_ino;
}

static void put(const void *bytes, size_t length)
{
    if (syscall(SYS_write, notes, bytes, length) != (ssize_t)length)
        abort();
}

static void note(int file, long offset, const void *bytes, long length)
{
    long front[2] = {offset, length};

    if (length < 0 || !is_noted(file))
        return;
    put(front, sizeof front);
    if (length > 0)
        put(bytes, length);
}

ssize_t write(int file, const void *bytes, size_t length)
{
    ssize_t done = syscall(SYS_write, file, bytes, length);

    if (done > 0 && is_noted(file))
        note(file, lseek(file, 0, SEEK_CUR) - done, bytes, done);
    return done;
}

ssize_t pwrite(int file, const void *bytes, size_t length, off_t offset)
{
    ssize_t done = syscall(SYS_pwrite64, file, bytes, length, offset);

    note(file, offset, bytes, done);
    return done;
}

ssize_t pwrite64(int file, const void *bytes, size_t length, off64_t offset)
{
    return pwrite(file, bytes, length, offset);
}

int fsync(int file)
{
    int failed = syscall(SYS_fsync, file);

    note(file, -1, NULL, failed);
    return failed;
}

int fdatasync(int file)
{
    int failed = syscall(SYS_fdatasync, file);

    note(file, -1, NULL, failed);
    return failed;
}
