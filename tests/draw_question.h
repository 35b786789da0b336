/* Drawing questions: good ones for each call, and ways to spoil them. */
#ifndef DRAW_QUESTION_H
#define DRAW_QUESTION_H

#include "question.h"

#include <stdbool.h>

/* A question with this shape, or one at the limits, and the house table, and nothing else yet; or
 * with l = 1 and one of the tables of every family and every size, which are counted from 0. In the
 * longest question each row of the house table is moved up, so that every parity is as long as one
 * can be. */
question house_question(uint64_t k, uint64_t m, uint64_t l);
question largest_question(void);
question longest_question(void);
enum { FAMILY_TABLES = WH_FAMILIES * WH_MAX_K * WH_MAX_M };
question family_question(uint64_t table);

/* Goes to the next choice of exactly k marks, from marks 0 on; false after the last. */
bool next_choice(question *q);

/* All marks, right and wrong ones, of all shapes up to three by three, each with four drawn
 * tables. */
void ask_at_all_small_marks(void (*ask)(question *q));

/* Parts. The shape is k, m, l and a table of one of several kinds; the marks are exactly k. */
void draw_shape(question *q);
void draw_small_shape(question *q, uint64_t most, uint64_t longest);
void draw_table(question *q);
void draw_marks(question *q);
void keep_every_source(question *q); /* packets 1 to k are at hand; k may be any number */
void lose_every_source(question *q); /* parities 1 to k are at hand */
void set_house_table(question *q);
void set_family_table(question *q, uint64_t family);
void set_bytes(bytes *to, uint64_t length); /* that many random bytes */

/* Input and output that fit a shape and marks which are already there. */
void fit_sources(question *q, uint64_t output_length);
void fit_survivors(question *q, uint64_t output_length); /* encoded from random sources */
void damage(bytes *packets);

/* The same for a log of as many stripes as are already there: all of them fit into the input. */
void encode_log(question *q, const uint8_t *sources);
void fit_log(question *q); /* encoded from random sources */
void damage_stripe(question *q, uint64_t t);

/* The steps of a walk, in a random order, until nothing is bare or a list is full. */
void fit_steps(question *q);

/* Whole questions, one maker for each call. */
void draw_for_family_table(question *q);
void draw_for_judge(question *q);
void draw_for_packet_length(question *q);
void draw_for_parities_length(question *q);
void draw_for_survivors_length(question *q);
void draw_for_encode_all(question *q);
void draw_for_walk(question *q);
void draw_for_next_step(question *q);
void draw_for_check_steps(question *q);
void draw_for_rebuild(question *q);
void draw_for_rebuild_log(question *q);
void draw_for_packet(question *q);
void draw_for_packet_of_sources(question *q);
void draw_for_look(question *q);
void draw_for_block(question *q);
void draw_for_read_blocks(question *q);
void draw_for_write_blocks(question *q);

/* Spoiling one place, at random or with a chosen value of the row of telling ones. The places are
 * nine numbers, each source's progress, six lengths, any byte of the table, of the input and of
 * each of the two lists of steps. */
enum {
    PROGRESS_PLACE = 9,
    LENGTH_PLACE = PROGRESS_PLACE + WH_MAX_K,
    BYTE_PLACE = LENGTH_PLACE + LENT_BUFFERS,
    SPOILED_PLACES = BYTE_PLACE + 4,
    TELLING_VALUES = 29
};
void spoil(question *q);
void spoil_place(question *q, size_t place, size_t value);

#endif
