/* What a program without an operating system says, and how it ends. semihosting.c says it to a
 * debugger, or to QEMU; uart.c on a serial line. A program links one of the two. */
#ifndef SAY_H
#define SAY_H

#include <stddef.h>
#include <stdint.h>

void say(const char *words);
void say_number(uint64_t number);
void say_bytes(const uint8_t *bytes, size_t length); /* in hex, a space before each */

/* Ends the program with this status. */
void leave(int status) __attribute__((noreturn));

#endif
