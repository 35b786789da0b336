#include "model.h"

#include <string.h>

static uint8_t xor_of_all(const uint8_t *at, size_t length)
{
    uint8_t sum = 0;
    for (size_t i = 0; i < length; i++) {
        sum ^= at[i];
    }
    return sum;
}

uint8_t pcb_with(uint64_t sequence, uint64_t more)
{
    return (uint8_t)(0x40 * sequence + 0x20 * more);
}

static bool is_pcb(uint8_t byte)
{
    return byte == 0x00 || byte == 0x20 || byte == 0x40 || byte == 0x60;
}

uint64_t sequence_of(const uint8_t *block)
{
    return block[1] == 0x40 || block[1] == 0x60 ? 1 : 0;
}

uint64_t more_of(const uint8_t *block)
{
    return block[1] == 0x20 || block[1] == 0x60 ? 1 : 0;
}

uint64_t block_number(const uint8_t *block, size_t length)
{
    if (length < BLOCK_FRAME) {
        return WH_BLOCK_SHORT;
    }
    if (block[2] == 255) {
        return WH_BLOCK_RESERVED;
    }
    if (length != (size_t)block[2] + BLOCK_FRAME) {
        return WH_BLOCK_LENGTH;
    }
    if (xor_of_all(block, length) != 0) {
        return WH_BLOCK_SUM;
    }
    if (block[0] != 0 || !is_pcb(block[1])) {
        return WH_BLOCK_HEADER;
    }
    return WH_DONE;
}

answer model_block(const question *q, uint8_t *output)
{
    const uint8_t *block = q->input.at;
    uint64_t number = block_number(block, q->input.length);
    if (number != WH_DONE) {
        return refused(number);
    }
    if (block[2] > q->output.length) {
        return refused(WH_ROOM);
    }
    memcpy(output, block + 3, block[2]);
    answer taken = done_with(block[2]);
    taken.results[1] = sequence_of(block);
    taken.results[2] = more_of(block);
    return taken;
}

void add_block(bytes *blocks, uint8_t pcb, const uint8_t *information, size_t length)
{
    uint8_t *block = blocks->at + blocks->length;
    block[0] = 0;
    block[1] = pcb;
    block[2] = (uint8_t)length;
    memcpy(block + 3, information, length);
    block[3 + length] = xor_of_all(block, 3 + length);
    blocks->length += length + BLOCK_FRAME;
}
