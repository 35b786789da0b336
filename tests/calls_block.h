/* The call that takes a block, beside its model and a maker of good questions. */
#ifndef CALLS_BLOCK_H
#define CALLS_BLOCK_H

#include "ask.h"
#include "draw_question.h"
#include "windhawker.h"

static inline answer ask_block(const question *q, const lent *at)
{
    wh_taken taken = wh_block(at->input, q->input.length, at->output, q->output.length);
    answer given = numbered(taken.number, taken.length);
    given.results[1] = taken.sequence;
    given.results[2] = taken.more;
    return given;
}

static const call block_call = {"block", ask_block, model_block, draw_for_block};

#endif
