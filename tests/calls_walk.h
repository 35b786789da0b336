/* The calls that walk without data, each beside its model and a maker of good questions. */
#ifndef CALLS_WALK_H
#define CALLS_WALK_H

#include "ask.h"
#include "draw_question.h"
#include "windhawker.h"

#include <string.h>

static inline answer ask_walk(const question *q, const lent *at)
{
    wh_walked walked = wh_walk(q->k, q->m, q->l, at->table, q->table.length, q->marks);
    answer given = numbered(walked.number, walked.count);
    given.results[1] = walked.whole;
    memcpy(&given.results[2], walked.progress, sizeof walked.progress);
    return given;
}

static inline answer ask_next_step(const question *q, const lent *at)
{
    wh_stepped stepped =
        wh_next_step(q->k, q->m, q->l, at->table, q->table.length, q->marks, at->progress);
    answer given = numbered(stepped.number, stepped.parity);
    given.results[1] = stepped.source;
    memcpy(&given.results[2], stepped.progress, sizeof stepped.progress);
    return given;
}

static const call walk_call = {"walk", ask_walk, model_walk, draw_for_walk};
static const call next_step_call = {"next step", ask_next_step, model_next_step,
                                    draw_for_next_step};

#endif
