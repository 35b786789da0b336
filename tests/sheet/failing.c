/* Loaded before the C library of the program class_sheet, in the place of its write: the third write to standard output
 * fails. One that comes after it ends the program, with status 3. */
#define _GNU_SOURCE
#include <errno.h>
#include <sys/syscall.h>
#include <unistd.h>

static ssize_t real_write(int file, const void *bytes, size_t length)
{
    return syscall(SYS_write, file, bytes, length);
}

ssize_t write(int file, const void *bytes, size_t length)
{
    static int writes = 0;
    if (file != STDOUT_FILENO) {
        return real_write(file, bytes, length);
    }
    writes++;
    if (writes > 3) {
        _exit(3);
    }
    if (writes == 3) {
        errno = EIO;
        return -1;
    }
    return real_write(file, bytes, length);
}
