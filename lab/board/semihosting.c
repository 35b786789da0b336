#include "semihosting.h"

enum { OPEN = 1, WRITE_TEXT = 4, WRITE = 5, READ = 6, EXIT_EXTENDED = 0x20 };
enum { MODE_READ = 1, MODE_WRITE = 5, APPLICATION_EXIT = 0x20026 };

/* The operation and the place of its words go into the first two registers; then one instruction
 * that a debugger stops at. */
#ifdef __riscv
static long trap(long operation, const void *words)
{
    register long first __asm__("a0") = operation;
    register const void *second __asm__("a1") = words;
    __asm__ volatile(".balign 16\n.option push\n.option norvc\n"
                     "slli x0, x0, 0x1f\nebreak\nsrai x0, x0, 7\n.option pop"
                     : "+r"(first)
                     : "r"(second)
                     : "memory");
    return first;
}
#else
static long trap(long operation, const void *words)
{
    register long first __asm__("r0") = operation;
    register const void *second __asm__("r1") = words;
    __asm__ volatile("bkpt 0xab" : "+r"(first) : "r"(second) : "memory");
    return first;
}
#endif

void say(const char *words)
{
    trap(WRITE_TEXT, words);
}

static long open_file(const char *name, uintptr_t mode)
{
    size_t length = 0;
    while (name[length] != 0) {
        length++;
    }
    const uintptr_t words[3] = {(uintptr_t)name, mode, length};
    return trap(OPEN, words);
}

long open_to_read(const char *name)
{
    return open_file(name, MODE_READ);
}

long open_to_write(const char *name)
{
    return open_file(name, MODE_WRITE);
}

int read_all(long handle, void *to, size_t length)
{
    uint8_t *at = to;
    while (length > 0) {
        const uintptr_t words[3] = {(uintptr_t)handle, (uintptr_t)at, length};
        size_t left = (size_t)trap(READ, words);
        if (left >= length) {
            return 0;
        }
        at += length - left;
        length = left;
    }
    return 1;
}

int write_all(long handle, const void *from, size_t length)
{
    const uintptr_t words[3] = {(uintptr_t)handle, (uintptr_t)from, length};
    return trap(WRITE, words) == 0;
}

void leave(int status)
{
    const uintptr_t words[2] = {APPLICATION_EXIT, (uintptr_t)status};
    for (;;) {
        trap(EXIT_EXTENDED, words);
    }
}
