/* The call that makes any one packet, beside its model and a maker of good questions; and the same
 * call where it encodes, with marks 1 to k, beside a model that has no marks. */
#ifndef CALLS_PACKET_H
#define CALLS_PACKET_H

#include "ask.h"
#include "draw_question.h"
#include "windhawker.h"

static inline answer ask_packet(const question *q, const lent *at)
{
    uint64_t number = wh_packet(q->k, q->m, q->l, at->table, q->table.length, q->marks, at->input,
                                q->input.length, q->packet, at->output, q->output.length);
    return numbered(number, 0);
}

/* Whatever marks the question has. */
static inline answer ask_packet_of_sources(const question *q, const lent *at)
{
    question marked = *q;
    keep_every_source(&marked);
    return ask_packet(&marked, at);
}

static const call packet_call = {"packet", ask_packet, model_packet, draw_for_packet};
static const call packet_of_sources_call = {"packet of sources", ask_packet_of_sources,
                                            model_encode_one, draw_for_packet_of_sources};

#endif
