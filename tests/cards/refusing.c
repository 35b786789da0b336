/* Linked with lesson 5 in the place of rename: the third one is refused. */
#include <errno.h>
#include <stdio.h>

int __real_rename(const char *from, const char *to);
int __wrap_rename(const char *from, const char *to);

int __wrap_rename(const char *from, const char *to)
{
    static int renames = 0;
    renames++;
    if (renames == 3) {
        errno = EBUSY;
        return -1;
    }
    return __real_rename(from, to);
}
