#include "model.h"

#include <string.h>

/* What is left of a run is cut after its first block, as LEN has it; where there is no LEN, or
 * where it wants more than is left, all of it is that block. */
static size_t first_length(const uint8_t *left, size_t length)
{
    bool cut = length >= BLOCK_FRAME && length > (size_t)left[2] + BLOCK_FRAME;
    return cut ? (size_t)left[2] + BLOCK_FRAME : length;
}

/* Joins what is left of a run, whose first block has this turn, to what was joined before. */
static uint64_t join(const uint8_t *left, size_t length, uint64_t turn, bytes *joined)
{
    size_t first = first_length(left, length);
    uint64_t number = block_number(left, first);
    if (number != WH_DONE) {
        return number;
    }
    if (sequence_of(left) != turn) {
        return WH_BLOCK_TURN;
    }
    bool is_last = first == length;
    if (more_of(left) == (is_last ? 1 : 0)) {
        return WH_BLOCK_END;
    }
    memcpy(joined->at + joined->length, left + 3, left[2]);
    joined->length += left[2];
    return is_last ? WH_DONE : join(left + first, length - first, 1 - turn, joined);
}

/* Gives the bytes, if there is room for them. */
static answer given(const bytes *made, const question *q, uint8_t *output)
{
    if (made->length > q->output.length) {
        return refused(WH_ROOM);
    }
    memcpy(output, made->at, made->length);
    return done_with(made->length);
}

answer model_read_blocks(const question *q, uint8_t *output)
{
    bytes joined;
    joined.length = 0;
    uint64_t number = join(q->input.at, q->input.length, 0, &joined);
    return number == WH_DONE ? given(&joined, q, output) : refused(number);
}

/* Block i, counted from 0, has the bytes from i * size on; there is one even for no bytes. */
answer model_write_blocks(const question *q, uint8_t *output)
{
    size_t length = q->input.length, size = (size_t)q->size;
    bytes blocks;
    blocks.length = 0;
    if (q->size < 1 || q->size > WH_MAX_INFORMATION) {
        return refused(WH_CUT);
    }
    if (length > WH_LONGEST) {
        return refused(WH_INPUT);
    }
    size_t last = length == 0 ? 0 : (length - 1) / size;
    for (size_t i = 0; i <= last; i++) {
        size_t information = i < last ? size : length - last * size;
        add_block(&blocks, pcb_with(i % 2, i < last), q->input.at + i * size, information);
    }
    return given(&blocks, q, output);
}
