/* The calls that rebuild and look, each beside its model and a maker of good questions. */
#ifndef CALLS_REBUILD_H
#define CALLS_REBUILD_H

#include "ask.h"
#include "draw_question.h"
#include "windhawker.h"

static inline answer ask_rebuild(const question *q, const lent *at)
{
    wh_rebuilt rebuilt = wh_rebuild(q->k, q->m, q->l, at->table, q->table.length, q->marks,
                                    at->input, q->input.length, at->output, q->output.length);
    return numbered(rebuilt.number, rebuilt.count);
}

static inline answer ask_look(const question *q, const lent *at)
{
    wh_looked looked = wh_look(q->k, q->m, q->l, at->table, q->table.length, q->marks, q->source,
                               at->input, q->input.length, at->rebuilt, q->rebuilt.length);
    answer given = numbered(looked.number, looked.buffer);
    given.results[1] = looked.start;
    given.results[2] = looked.length;
    return given;
}

static const call rebuild_call = {"rebuild", ask_rebuild, model_rebuild, draw_for_rebuild};
static const call look_call = {"look", ask_look, model_look, draw_for_look};

/* Compares rebuild at damaged packets of any size, of short sources. */
static inline void compare_damaged(int questions)
{
    question q;
    for (int i = 0; i < questions; i++) {
        draw_small_shape(&q, WH_MAX_K, 2);
        draw_marks(&q);
        fit_survivors(&q, q.k * q.l);
        damage(&q.input);
        compare(&rebuild_call, &q);
    }
}

#endif
