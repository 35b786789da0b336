/* What every call should answer, in plain C and straight from docs/RULES.md, as slow as it likes;
 * the Hankel family straight from its paper. Nothing of the library is used but the names of the
 * limits, of the families and of the numbers, which pinned_test holds to the rules. Sources,
 * parities and packets are numbered from 1, as in the rules. A model call writes its output only
 * when it is done, but for the good stripes of a log that has a bad one. */
#ifndef MODEL_H
#define MODEL_H

#include "question.h"

#include <stdbool.h>

typedef answer model_call(const question *q, uint8_t *output);

model_call model_family_table;     /* results: none */
model_call model_judge;            /* results: growing */
model_call model_packet_length;    /* results: length */
model_call model_parities_length;  /* results: length */
model_call model_survivors_length; /* results: length */
model_call model_encode_all;       /* results: none */
model_call model_walk;             /* results: count, whole, progress */
model_call model_next_step;        /* results: parity, source, progress */
model_call model_check_steps;      /* results: place */
model_call model_rebuild;          /* results: count */
model_call model_rebuild_log;      /* results: good, count */
model_call model_packet;           /* results: none */
model_call model_look;             /* results: buffer, start, length */
model_call model_block;            /* results: length, sequence, more */
model_call model_read_blocks;      /* results: length */
model_call model_write_blocks;     /* results: length */

/* What packet should answer with marks 1 to k, whatever marks the question has. It decodes nothing:
 * the checks are 1 2 3 6 4 5. */
model_call model_encode_one; /* results: none */

/* The shape: the number of the first check among 1 2 3 (or 1 2 3 6 7) that refuses, or WH_DONE. */
uint64_t shape_number(const question *q);
uint64_t marked_shape_number(const question *q);
bool bad_size(const question *q);
bool bad_length(const question *q);
bool bad_table(const question *q);
bool bad_packet(const question *q);

/* From here on the shape is one that was not refused, and so is the family. */
void write_family_table(const question *q, uint8_t *out);
uint64_t entry(const question *q, uint64_t a, uint64_t b);
uint64_t largest_entry(const question *q);
uint64_t source_bits(const question *q);
uint64_t parity_bits(const question *q, uint64_t a); /* up to the last that its row can set */
uint64_t packet_bytes(const question *q, uint64_t packet);
uint64_t parities_bytes(const question *q);
uint64_t survivors_bytes(const question *q);
bool at_hand(const question *q, uint64_t packet);
bool missing(const question *q, uint64_t b);
uint64_t packet_place(const question *q, uint64_t packet); /* among the packets at hand */

uint8_t bit_of(const uint8_t *bytes_at, uint64_t p);
void encode_packet(const question *q, const uint8_t *sources, uint64_t packet, uint8_t *out);
void encode_survivors(const question *q, const uint8_t *sources, uint8_t *out);

/* Stripe t of a log, from 0, as a question for rebuild. */
question stripe_question(const question *q, uint64_t t);

/* A walk: steps made and progress, that of source b at progress[b - 1]. */
typedef struct {
    uint64_t count;
    uint64_t progress[WH_MAX_K];
} walked;

bool bare(const question *q, const uint64_t *progress, uint64_t a, uint64_t b);
bool whole(const question *q, const walked *walk);
walked walk_lowest_first(const question *q);
walked walk_in_random_order(const question *q);

/* A list of steps, with room for one more than the longest walk has. */
enum { STEPS_MOST = WH_MAX_K * 8 * WH_MAX_LENGTH + 1 };

typedef struct {
    size_t length;
    uint8_t parities[STEPS_MOST], sources[STEPS_MOST];
} steps;

/* Which of so many bare pairs, lowest parity first, the next step takes, counted from 0;
 * random_below is one too. */
typedef uint64_t chooser(uint64_t found);
chooser the_first;
chooser the_last;

/* Lists the steps of a walk in the chosen order, until nothing is bare. */
void list_steps(const question *q, chooser *choose, steps *list);

/* The answer for two lists of this length, which may be longer than a question's. */
answer answer_to_steps(const question *q, const uint8_t *parities, const uint8_t *sources,
                       size_t length);

/* A block: the number of the first check among 11 to 15 that refuses these bytes, or WH_DONE; N(S)
 * and M of one that was not refused. */
uint64_t block_number(const uint8_t *block, size_t length);
uint64_t sequence_of(const uint8_t *block);
uint64_t more_of(const uint8_t *block);

/* Puts a block with this PCB behind what is there, its LRC right. */
void add_block(bytes *blocks, uint8_t pcb, const uint8_t *information, size_t length);

/* The PCB of a block, by N(S) and M. */
uint8_t pcb_with(uint64_t sequence, uint64_t more);

#endif
