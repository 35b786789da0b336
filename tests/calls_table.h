/* The calls that make, judge and measure, each beside its model and a maker of good questions. */
#ifndef CALLS_TABLE_H
#define CALLS_TABLE_H

#include "ask.h"
#include "draw_question.h"
#include "windhawker.h"

static inline answer ask_family_table(const question *q, const lent *at)
{
    return numbered(wh_family_table(q->k, q->m, q->family, at->output, q->output.length), 0);
}

static inline answer ask_judge(const question *q, const lent *at)
{
    wh_judged judged = wh_judge(q->k, q->m, at->table, q->table.length);
    return numbered(judged.number, judged.growing);
}

static inline answer measured_answer(wh_measured measured)
{
    return numbered(measured.number, measured.length);
}

static inline answer ask_packet_length(const question *q, const lent *at)
{
    return measured_answer(
        wh_packet_length(q->k, q->m, q->l, at->table, q->table.length, q->packet));
}

static inline answer ask_parities_length(const question *q, const lent *at)
{
    return measured_answer(wh_parities_length(q->k, q->m, q->l, at->table, q->table.length));
}

static inline answer ask_survivors_length(const question *q, const lent *at)
{
    return measured_answer(
        wh_survivors_length(q->k, q->m, q->l, at->table, q->table.length, q->marks));
}

static const call family_table_call = {"family table", ask_family_table, model_family_table,
                                       draw_for_family_table};
static const call judge_call = {"judge", ask_judge, model_judge, draw_for_judge};
static const call packet_length_call = {"packet length", ask_packet_length, model_packet_length,
                                        draw_for_packet_length};
static const call parities_length_call = {"parities length", ask_parities_length,
                                          model_parities_length, draw_for_parities_length};
static const call survivors_length_call = {"survivors length", ask_survivors_length,
                                           model_survivors_length, draw_for_survivors_length};

#endif
