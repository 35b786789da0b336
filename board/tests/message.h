/* What goes between a test and the board: a question, then the bytes of its buffers; back, an
 * answer, then the same bytes as they are after the call, with a margin on either side. All numbers
 * have 64 bits, lowest byte first, so that both sides have them alike. */
#ifndef MESSAGE_H
#define MESSAGE_H

#include "windhawker_limits.h"

#include <stddef.h>
#include <stdint.h>

/* The second input is look's rebuilt sources, or the sources of a list of steps. */
enum { TABLE, INPUT, SECOND_INPUT, OUTPUT, BUFFERS };
enum { MARGIN = 16, MARGIN_BYTE = 0xA5, BUFFER_MOST = WH_MAX_K * WH_LONGEST + 128 };
enum { RESULTS = 2 + WH_MAX_K };
enum { BYTES_ASKED = BUFFERS * BUFFER_MOST, BYTES_ANSWERED = BYTES_ASKED + 2 * MARGIN };

typedef enum {
    FAMILY_TABLE,
    JUDGE,
    PACKET_LENGTH,
    PARITIES_LENGTH,
    SURVIVORS_LENGTH,
    ENCODE_ALL,
    WALK,
    NEXT_STEP,
    CHECK_STEPS,
    REBUILD,
    REBUILD_LOG,
    PACKET,
    LOOK,
    BLOCK,
    READ_BLOCKS,
    WRITE_BLOCKS,
    CALLS
} call_number;

typedef struct {
    uint64_t call, k, m, l, family, stripes, marks, packet, source, size;
    uint64_t progress[WH_MAX_K];
    uint64_t lengths[BUFFERS];
} asked_message;

/* The bytes that are sent for a buffer of this length: what would be left of it in 32 bits. So a
 * length that is cut on the board is one that fits. */
static inline size_t bytes_sent(uint64_t length)
{
    return (size_t)(length & UINT32_MAX);
}

typedef struct {
    uint64_t number;
    uint64_t results[RESULTS]; /* as the call's struct has them after the number; rest 0 */
    uint64_t stack;            /* the deepest that the call went, in bytes */
} answered_message;

#endif
