/* One question carried to the board, and its answer back. */
#ifndef ERRAND_H
#define ERRAND_H

#include "message.h"

/* What is asked, and where its buffers stand here. */
typedef struct {
    asked_message words;
    const uint8_t *inputs[BUFFERS]; /* all but the output */
    uint8_t *output;
} errand;

errand new_errand(call_number call, uint64_t k, uint64_t m, uint64_t l);
void lend_input(errand *e, int buffer, const uint8_t *at, uint64_t length);
void lend_output(errand *e, uint8_t *at, uint64_t length);

/* Sends it through the pipe `asked`, and takes the answer from the pipe `answered`. Fails when the
 * board has stopped, or when more than the output has changed there. */
answered_message run(const errand *e);

#endif
