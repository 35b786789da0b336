/* A question is everything that a call can be given; an answer is everything that it gives back
 * but the bytes of the output. Each call looks only at the parts that it takes. */
#ifndef QUESTION_H
#define QUESTION_H

#include "windhawker_limits.h"

#include <stddef.h>
#include <stdint.h>

/* More bytes than any call takes, but for the longest lists of steps and long logs, which have
 * tests of their own; and the results of the walk, which gives most. */
enum { BYTES_MOST = WH_MAX_K * WH_LONGEST + 128, RESULTS_MOST = 2 + WH_MAX_K };

/* The bytes of a block beside its information: NAD, PCB, LEN and LRC. */
enum { BLOCK_FRAME = 4 };

typedef struct {
    size_t length;
    uint8_t at[BYTES_MOST];
} bytes;

typedef struct {
    uint64_t k, m, l;
    uint64_t family;
    uint64_t stripes;
    uint64_t marks;
    uint64_t packet;
    uint64_t source;
    uint64_t size; /* the information bytes of a block that is to be written */
    uint64_t progress[WH_MAX_K];
    bytes table;
    bytes input;   /* the sources, the packets at hand, the block or blocks, the packet to cut */
    bytes rebuilt; /* the rebuilt sources, for the look */
    bytes step_parities; /* a list of steps: the parity of each */
    bytes step_sources;  /* and the source of each */
    bytes output;        /* with its old bytes */
} question;

/* Its six buffers: the table, the input, the rebuilt sources, the two lists, the output. */
enum { LENT_BUFFERS = 6 };
bytes *lent_buffer(question *q, size_t buffer);

typedef struct {
    uint64_t number;
    uint64_t results[RESULTS_MOST]; /* as the call's struct has them after the number; rest 0 */
} answer;

answer numbered(uint64_t number, uint64_t result); /* its first result */
answer refused(uint64_t number);
answer done(void);
answer done_with(uint64_t result);

#endif
