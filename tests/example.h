/* Worked examples: a question written down by hand, and the answer that it has. Bytes are hex.
 * The model is held to the examples as well as the library. */
#ifndef EXAMPLE_H
#define EXAMPLE_H

#include "ask.h"

/* k = 2, m = 2, l = 1 and the house table 0 1; 0 2: what an example has unless it says more. */
question example(void);
question with_table(uint64_t k, uint64_t m, const char *table); /* l = 1 */
question with_input(question q, const char *input);
question with_marks(question q, uint64_t marks, const char *packets);
question wanting(question q, uint64_t packet);
void set_hex(bytes *to, const char *hex);

/* Done: the output is lent as many bytes as are expected in it, each AA before. */
void gives(const call *asked, question q, answer right, const char *output);

/* The output of that length keeps its bytes. */
void refuses(const call *asked, question q, answer right, size_t output_length);

#endif
