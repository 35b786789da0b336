/* What the lab's programs share: bits and bytes on paper, numbers from the command line, and an end
 * when a call refuses.
 *
 * The library's numbers are uint64_t. How printf wants them depends on the machine: "%lu" here,
 * "%llu" on a 32-bit board, where "%lu" would print half of one and take the other half for what
 * follows. <inttypes.h> knows: "%" PRIu64 is right on both. */
#ifndef SHOW_H
#define SHOW_H

#include "windhawker.h"

#include <errno.h>
#include <inttypes.h>
#include <stdio.h>
#include <stdlib.h>

/* Bit p of a packet: bit p % 8 of byte p / 8. */
static inline int bit_of(const uint8_t *packet, uint64_t p)
{
    return packet[p / 8] >> (p % 8) & 1;
}

static inline void print_bits(const uint8_t *packet, uint64_t bits)
{
    for (uint64_t p = 0; p < bits; p++) {
        putchar('0' + bit_of(packet, p));
    }
}

static inline void print_bytes(const uint8_t *bytes, size_t length)
{
    for (size_t i = 0; i < length; i++) {
        printf(i == 0 ? "%02X" : " %02X", bytes[i]);
    }
}

/* Every call gives a number. Where only WH_DONE will do, this ends the program on any other. */
static inline void must(uint64_t number, const char *call)
{
    if (number != WH_DONE) {
        fprintf(stderr, "%s refused, %" PRIu64 ": %s\n", call, number, wh_meaning(number));
        exit(1);
    }
}

/* Reads a word that is a decimal number of at most this size, and nothing else. Says whether it
 * was; if not, the number is as before. */
static inline int read_number(const char *word, uint64_t most, uint64_t *number)
{
    char *end;
    errno = 0;
    unsigned long long value = strtoull(word, &end, 10);
    if (*word < '0' || *word > '9' || *end != '\0' || errno != 0 || value > most) {
        return 0;
    }
    *number = value;
    return 1;
}

/* The marks of packets 1 to k, which are the sources: with them wh_packet encodes. C gives no
 * meaning to a shift by 64 or more; a k above WH_MAX_K is refused whatever the marks are. */
static inline uint64_t source_marks(uint64_t k)
{
    return k > WH_MAX_K ? 0 : ((uint64_t)1 << k) - 1;
}

/* The numbers of the packets at hand, from their marks. */
static inline void print_marks(uint64_t marks)
{
    for (uint64_t packet = 1; packet <= WH_MAX_K + WH_MAX_M; packet++) {
        if (marks >> (packet - 1) & 1) {
            printf(" %" PRIu64, packet);
        }
    }
}

#endif
