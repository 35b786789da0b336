/* Guarded buffers: what is lent stands flush against memory that must not be touched. */
#ifndef LEND_H
#define LEND_H

#include "question.h"

#include <stdbool.h>

typedef struct {
    const uint64_t *progress;
    const uint8_t *table;
    const uint8_t *input;
    const uint8_t *rebuilt;
    const uint8_t *step_parities;
    const uint8_t *step_sources;
    uint8_t *output;
} lent;

typedef enum {
    FLUSH_AT_END,   /* the byte after each buffer is out of reach */
    FLUSH_AT_START, /* the byte before each buffer is out of reach */
    NULL_IF_EMPTY   /* as FLUSH_AT_END, and a buffer of no bytes is NULL */
} lending;

/* Copies the question's bytes into guarded buffers. The last ones lent are no longer valid. */
lent lend(const question *q, lending way);

/* Lends these lists in place of the question's, which may be too short for them. */
void lend_lists(lent *at, const uint8_t *parities, const uint8_t *sources, size_t length,
                lending way);

/* The same for the packets and the output of a log. */
void lend_log(lent *at, const uint8_t *packets, size_t packets_length, const uint8_t *output,
              size_t output_length, lending way);

/* Whether everything that was lent for reading still has the question's bytes. */
bool inputs_kept(const question *q, const lent *at);

#endif
