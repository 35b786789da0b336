/* The call that checks a list of steps, beside its model and a maker of good questions. */
#ifndef CALLS_STEPS_H
#define CALLS_STEPS_H

#include "ask.h"
#include "check.h"
#include "draw_question.h"
#include "windhawker.h"

#include <inttypes.h>

static inline answer ask_check_steps(const question *q, const lent *at)
{
    wh_checked checked =
        wh_check_steps(q->k, q->m, q->l, at->table, q->table.length, q->marks, at->step_parities,
                       q->step_parities.length, at->step_sources, q->step_sources.length);
    return numbered(checked.number, checked.place);
}

static const call check_steps_call = {"check steps", ask_check_steps, model_check_steps,
                                      draw_for_check_steps};

/* Makes both lists so long. */
static inline void set_steps(question *q, size_t count)
{
    q->step_parities.length = q->step_sources.length = count;
}

static inline void add_step(question *q, uint64_t parity, uint64_t source)
{
    size_t count = q->step_parities.length;
    if (count == BYTES_MOST) {
        fail("a list with no end");
    }
    q->step_parities.at[count] = (uint8_t)parity;
    q->step_sources.at[count] = (uint8_t)source;
    set_steps(q, count + 1);
}

/* Fails unless this is the answer of the library and of the model. */
static inline void expect_checked(const question *q, uint64_t number, uint64_t place)
{
    answer given = compare(&check_steps_call, q);
    if (given.number != number || given.results[0] != place) {
        fail("%" PRIu64 " at %" PRIu64 ", not %" PRIu64 " at %" PRIu64, given.number,
             given.results[0], number, place);
    }
}

#endif
