/* The call that encodes all parities, beside its model and a maker of good questions. */
#ifndef CALLS_ENCODE_H
#define CALLS_ENCODE_H

#include "ask.h"
#include "draw_question.h"
#include "windhawker.h"

static inline answer ask_encode_all(const question *q, const lent *at)
{
    uint64_t number = wh_encode_all(q->k, q->m, q->l, at->table, q->table.length, at->input,
                                    q->input.length, at->output, q->output.length);
    return numbered(number, 0);
}

static const call encode_all_call = {"encode all", ask_encode_all, model_encode_all,
                                     draw_for_encode_all};

#endif
