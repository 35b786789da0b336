/* The call that rebuilds a whole log, beside its model and a maker of good questions. */
#ifndef CALLS_LOG_H
#define CALLS_LOG_H

#include "ask.h"
#include "draw_question.h"
#include "windhawker.h"

static inline answer log_answer(uint64_t number, uint64_t good, uint64_t count)
{
    answer given = numbered(number, good);
    given.results[1] = count;
    return given;
}

static inline answer ask_rebuild_log(const question *q, const lent *at)
{
    wh_log_rebuilt rebuilt =
        wh_rebuild_log(q->k, q->m, q->l, at->table, q->table.length, q->stripes, q->marks,
                       at->input, q->input.length, at->output, q->output.length);
    return log_answer(rebuilt.number, rebuilt.good, rebuilt.count);
}

static inline uint64_t missing_sources(const question *q)
{
    uint64_t count = 0;
    for (uint64_t b = 1; b <= q->k; b++) {
        count += missing(q, b) ? 1 : 0;
    }
    return count;
}

static inline bool evenly_spaced(uint64_t marks)
{
    uint64_t spacing = 0, last = 64;
    for (uint64_t i = 0; i < 64; i++) {
        if ((marks >> i & 1) == 0) {
            continue;
        }
        if (spacing != 0 && i - last != spacing) {
            return false;
        }
        spacing = last < 64 ? i - last : 0;
        last = i;
    }
    return true;
}

/* With the house table the missing sources are solved for at once where they, or the parities at
 * hand, are evenly spaced. Where neither are, they are uncovered step by step. */
static inline bool is_uneven(const question *q)
{
    uint64_t every_source = ((uint64_t)1 << q->k) - 1;
    return !evenly_spaced(~q->marks & every_source) && !evenly_spaced(q->marks >> q->k);
}

static const call rebuild_log_call = {"rebuild log", ask_rebuild_log, model_rebuild_log,
                                      draw_for_rebuild_log};

#endif
