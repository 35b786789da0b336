/* What newlib asks of a board, so that printf and malloc work: text goes out by `say`, and nothing
 * comes in. Its _sbrk, from --specs=nosys.specs, takes the heap from `end`, which sections.ld has.
 * A line goes out once it has ended, as on a terminal; fflush(stdout) sends half a line. */
#include "say.h"

#include <sys/stat.h>

int _write(int file, const char *from, int length)
{
    (void)file;
    for (int i = 0; i < length; i++) {
        const char word[2] = {from[i], 0};
        say(word);
    }
    return length;
}

int _read(int file, char *to, int length)
{
    (void)file, (void)to, (void)length;
    return 0;
}

int _lseek(int file, int place, int from)
{
    (void)file, (void)place, (void)from;
    return -1;
}

int _close(int file)
{
    (void)file;
    return -1;
}

int _fstat(int file, struct stat *found)
{
    (void)file;
    found->st_mode = S_IFCHR;
    return 0;
}

int _isatty(int file)
{
    (void)file;
    return 1;
}

void _exit(int status)
{
    leave(status);
}
