/* What the compilers call of a C library, for a program that has none. Their loops go over volatile
 * bytes: a compiler would make others into a call of the very function that they stand in. */
#include <stddef.h>
#include <stdint.h>

void *memcpy(void *restrict to, const void *restrict from, size_t length);
void *memmove(void *to, const void *from, size_t length);
void *memset(void *to, int value, size_t length);

static void move(volatile uint8_t *to, const volatile uint8_t *from, size_t length)
{
    for (size_t i = 0; to <= from && i < length; i++) {
        to[i] = from[i];
    }
    for (size_t i = length; to > from && i > 0; i--) {
        to[i - 1] = from[i - 1];
    }
}

static void fill(volatile uint8_t *to, int value, size_t length)
{
    for (size_t i = 0; i < length; i++) {
        to[i] = (uint8_t)value;
    }
}

void *memcpy(void *restrict to, const void *restrict from, size_t length)
{
    move(to, from, length);
    return to;
}

void *memmove(void *to, const void *from, size_t length)
{
    move(to, from, length);
    return to;
}

void *memset(void *to, int value, size_t length)
{
    fill(to, value, length);
    return to;
}

#ifdef __ARM_EABI__
/* The same by the names that ARM's rules give them. The ends 4 and 8 promise an alignment, which
 * nothing here needs. */
typedef void moved(void *to, const void *from, size_t length);
typedef void filled(void *to, size_t length, int value);
typedef void cleared(void *to, size_t length);

moved __aeabi_memmove;
moved __aeabi_memmove4 __attribute__((alias("__aeabi_memmove")));
moved __aeabi_memmove8 __attribute__((alias("__aeabi_memmove")));
moved __aeabi_memcpy __attribute__((alias("__aeabi_memmove")));
moved __aeabi_memcpy4 __attribute__((alias("__aeabi_memmove")));
moved __aeabi_memcpy8 __attribute__((alias("__aeabi_memmove")));
filled __aeabi_memset;
filled __aeabi_memset4 __attribute__((alias("__aeabi_memset")));
filled __aeabi_memset8 __attribute__((alias("__aeabi_memset")));
cleared __aeabi_memclr;
cleared __aeabi_memclr4 __attribute__((alias("__aeabi_memclr")));
cleared __aeabi_memclr8 __attribute__((alias("__aeabi_memclr")));

void __aeabi_memmove(void *to, const void *from, size_t length)
{
    move(to, from, length);
}

void __aeabi_memset(void *to, size_t length, int value)
{
    fill(to, value, length);
}

void __aeabi_memclr(void *to, size_t length)
{
    fill(to, 0, length);
}
#endif
