/* Semihosting: what a program without an operating system asks of the debugger, or of QEMU. */
#ifndef SEMIHOSTING_H
#define SEMIHOSTING_H

#include "say.h"

/* Files beside the debugger. Opening gives a handle, or -1; reading and writing say whether all
 * went through. */
long open_to_read(const char *name);
long open_to_write(const char *name);
int read_all(long handle, void *to, size_t length);
int write_all(long handle, const void *from, size_t length);

#endif
