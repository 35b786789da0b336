/* The calls that read and write a run of blocks, each beside its model and a maker of good
 * questions. */
#ifndef CALLS_CHAIN_H
#define CALLS_CHAIN_H

#include "ask.h"
#include "draw_question.h"
#include "windhawker.h"

static inline answer ask_read_blocks(const question *q, const lent *at)
{
    wh_joined joined = wh_read_blocks(at->input, q->input.length, at->output, q->output.length);
    return numbered(joined.number, joined.length);
}

static inline answer ask_write_blocks(const question *q, const lent *at)
{
    wh_written written =
        wh_write_blocks(at->input, q->input.length, q->size, at->output, q->output.length);
    return numbered(written.number, written.length);
}

static const call read_blocks_call = {"read blocks", ask_read_blocks, model_read_blocks,
                                      draw_for_read_blocks};
static const call write_blocks_call = {"write blocks", ask_write_blocks, model_write_blocks,
                                       draw_for_write_blocks};

/* Compares at a random packet of this length that is written in blocks of this size and read
 * again. What is read is the packet, whatever the model says of that. */
static inline void compare_written_and_read(uint64_t length, uint64_t size)
{
    question q = {0};
    bytes packet, blocks;
    answer right = done_with(length);
    set_bytes(&packet, length);
    q.size = size;
    q.input = packet;
    q.output.length = WH_BLOCKS_LONGEST;
    blocks.length = (size_t)model_write_blocks(&q, blocks.at).results[0];
    compare_into_outputs(&write_blocks_call, &q, blocks.length);
    q.input = blocks;
    compare_into_outputs(&read_blocks_call, &q, packet.length);
    q.output.length = packet.length;
    expect(&read_blocks_call, &q, &right, packet.at);
}

#endif
