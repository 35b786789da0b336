/* The library as a test sees it while it runs on a board: each call is an errand. */
#include "errand.h"
#include "windhawker.h"

#include <string.h>

/* For a call that has one result, which goes into its slot; the number comes back. */
static uint64_t run_for_one(const errand *e, uint64_t *result)
{
    answered_message answered = run(e);
    *result = answered.results[0];
    return answered.number;
}

uint64_t whx_family_table(uint64_t k, uint64_t m, uint64_t family, uint8_t *out, uint64_t out_len)
{
    errand e = new_errand(FAMILY_TABLE, k, m, 0);
    e.words.family = family;
    lend_output(&e, out, out_len);
    return run(&e).number;
}

uint64_t whx_judge(uint64_t k, uint64_t m, const uint8_t *table, uint64_t table_len,
                   uint64_t *growing)
{
    errand e = new_errand(JUDGE, k, m, 0);
    lend_input(&e, TABLE, table, table_len);
    return run_for_one(&e, growing);
}

/* An errand that has a shape. */
static errand shaped_errand(call_number call, uint64_t k, uint64_t m, uint64_t l,
                            const uint8_t *table, uint64_t table_len)
{
    errand e = new_errand(call, k, m, l);
    lend_input(&e, TABLE, table, table_len);
    return e;
}

uint64_t whx_packet_length(uint64_t k, uint64_t m, uint64_t l, const uint8_t *table,
                           uint64_t table_len, uint64_t packet, uint64_t *length)
{
    errand e = shaped_errand(PACKET_LENGTH, k, m, l, table, table_len);
    e.words.packet = packet;
    return run_for_one(&e, length);
}

uint64_t whx_parities_length(uint64_t k, uint64_t m, uint64_t l, const uint8_t *table,
                             uint64_t table_len, uint64_t *length)
{
    errand e = shaped_errand(PARITIES_LENGTH, k, m, l, table, table_len);
    return run_for_one(&e, length);
}

uint64_t whx_survivors_length(uint64_t k, uint64_t m, uint64_t l, const uint8_t *table,
                              uint64_t table_len, uint64_t marks, uint64_t *length)
{
    errand e = shaped_errand(SURVIVORS_LENGTH, k, m, l, table, table_len);
    e.words.marks = marks;
    return run_for_one(&e, length);
}

uint64_t whx_encode_all(uint64_t k, uint64_t m, uint64_t l, const uint8_t *table,
                        uint64_t table_len, const uint8_t *sources, uint64_t sources_len,
                        uint8_t *out, uint64_t out_len)
{
    errand e = shaped_errand(ENCODE_ALL, k, m, l, table, table_len);
    lend_input(&e, INPUT, sources, sources_len);
    lend_output(&e, out, out_len);
    return run(&e).number;
}

uint64_t whx_walk(uint64_t k, uint64_t m, uint64_t l, const uint8_t *table, uint64_t table_len,
                  uint64_t marks, uint64_t *count, uint64_t *whole, uint64_t progress[WH_MAX_K])
{
    errand e = shaped_errand(WALK, k, m, l, table, table_len);
    e.words.marks = marks;
    answered_message answered = run(&e);
    *count = answered.results[0];
    *whole = answered.results[1];
    memcpy(progress, &answered.results[2], WH_MAX_K * sizeof progress[0]);
    return answered.number;
}

uint64_t whx_next_step(uint64_t k, uint64_t m, uint64_t l, const uint8_t *table, uint64_t table_len,
                       uint64_t marks, const uint64_t progress[WH_MAX_K], uint64_t *parity,
                       uint64_t *source, uint64_t after[WH_MAX_K])
{
    errand e = shaped_errand(NEXT_STEP, k, m, l, table, table_len);
    e.words.marks = marks;
    memcpy(e.words.progress, progress, sizeof e.words.progress);
    answered_message answered = run(&e);
    *parity = answered.results[0];
    *source = answered.results[1];
    memcpy(after, &answered.results[2], WH_MAX_K * sizeof after[0]);
    return answered.number;
}

uint64_t whx_check_steps(uint64_t k, uint64_t m, uint64_t l, const uint8_t *table,
                         uint64_t table_len, uint64_t marks, const uint8_t *parities,
                         uint64_t parities_len, const uint8_t *sources, uint64_t sources_len,
                         uint64_t *place)
{
    errand e = shaped_errand(CHECK_STEPS, k, m, l, table, table_len);
    e.words.marks = marks;
    lend_input(&e, INPUT, parities, parities_len);
    lend_input(&e, SECOND_INPUT, sources, sources_len);
    return run_for_one(&e, place);
}

uint64_t whx_rebuild(uint64_t k, uint64_t m, uint64_t l, const uint8_t *table, uint64_t table_len,
                     uint64_t marks, const uint8_t *packets, uint64_t packets_len, uint8_t *out,
                     uint64_t out_len, uint64_t *count)
{
    errand e = shaped_errand(REBUILD, k, m, l, table, table_len);
    e.words.marks = marks;
    lend_input(&e, INPUT, packets, packets_len);
    lend_output(&e, out, out_len);
    return run_for_one(&e, count);
}

uint64_t whx_rebuild_log(uint64_t k, uint64_t m, uint64_t l, const uint8_t *table,
                         uint64_t table_len, uint64_t stripes, uint64_t marks,
                         const uint8_t *packets, uint64_t packets_len, uint8_t *out,
                         uint64_t out_len, uint64_t *good, uint64_t *count)
{
    errand e = shaped_errand(REBUILD_LOG, k, m, l, table, table_len);
    e.words.stripes = stripes;
    e.words.marks = marks;
    lend_input(&e, INPUT, packets, packets_len);
    lend_output(&e, out, out_len);
    answered_message answered = run(&e);
    *good = answered.results[0];
    *count = answered.results[1];
    return answered.number;
}

uint64_t whx_packet(uint64_t k, uint64_t m, uint64_t l, const uint8_t *table, uint64_t table_len,
                    uint64_t marks, const uint8_t *packets, uint64_t packets_len, uint64_t packet,
                    uint8_t *out, uint64_t out_len)
{
    errand e = shaped_errand(PACKET, k, m, l, table, table_len);
    e.words.marks = marks;
    e.words.packet = packet;
    lend_input(&e, INPUT, packets, packets_len);
    lend_output(&e, out, out_len);
    return run(&e).number;
}

uint64_t whx_look(uint64_t k, uint64_t m, uint64_t l, const uint8_t *table, uint64_t table_len,
                  uint64_t marks, uint64_t source, const uint8_t *survivors, uint64_t survivors_len,
                  const uint8_t *rebuilt, uint64_t rebuilt_len, uint64_t *buffer, uint64_t *start,
                  uint64_t *length)
{
    errand e = shaped_errand(LOOK, k, m, l, table, table_len);
    e.words.marks = marks;
    e.words.source = source;
    lend_input(&e, INPUT, survivors, survivors_len);
    lend_input(&e, SECOND_INPUT, rebuilt, rebuilt_len);
    answered_message answered = run(&e);
    *buffer = answered.results[0];
    *start = answered.results[1];
    *length = answered.results[2];
    return answered.number;
}

/* An errand that has an input and an output, and no shape. */
static errand block_errand(call_number call, const uint8_t *input, uint64_t input_len,
                           uint8_t *dest, uint64_t dest_len)
{
    errand e = new_errand(call, 0, 0, 0);
    lend_input(&e, INPUT, input, input_len);
    lend_output(&e, dest, dest_len);
    return e;
}

uint64_t whx_block(const uint8_t *block, uint64_t block_len, uint8_t *dest, uint64_t dest_len,
                   uint64_t *length, uint64_t *sequence, uint64_t *more)
{
    errand e = block_errand(BLOCK, block, block_len, dest, dest_len);
    answered_message answered = run(&e);
    *length = answered.results[0];
    *sequence = answered.results[1];
    *more = answered.results[2];
    return answered.number;
}

uint64_t whx_read_blocks(const uint8_t *blocks, uint64_t blocks_len, uint8_t *dest,
                         uint64_t dest_len, uint64_t *length)
{
    errand e = block_errand(READ_BLOCKS, blocks, blocks_len, dest, dest_len);
    return run_for_one(&e, length);
}

uint64_t whx_write_blocks(const uint8_t *packet, uint64_t packet_len, uint64_t size, uint8_t *dest,
                          uint64_t dest_len, uint64_t *length)
{
    errand e = block_errand(WRITE_BLOCKS, packet, packet_len, dest, dest_len);
    e.words.size = size;
    return run_for_one(&e, length);
}
