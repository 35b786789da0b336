#include "model.h"

#include <string.h>

uint8_t bit_of(const uint8_t *bytes_at, uint64_t p)
{
    return (uint8_t)(bytes_at[p / 8] >> (p % 8) & 1);
}

/* The coefficient of z to the p in parity a: the sum modulo 2 over all sources. */
static uint8_t parity_bit(const question *q, const uint8_t *sources, uint64_t a, uint64_t p)
{
    uint8_t sum = 0;
    for (uint64_t b = 1; b <= q->k; b++) {
        uint64_t shift = entry(q, a, b);
        if (p >= shift && p - shift < source_bits(q)) {
            sum ^= bit_of(sources + (b - 1) * q->l, p - shift);
        }
    }
    return sum;
}

static void encode_parity(const question *q, const uint8_t *sources, uint64_t a, uint8_t *out)
{
    uint64_t length = packet_bytes(q, q->k + a);
    memset(out, 0, length);
    for (uint64_t p = 0; p < 8 * length; p++) {
        out[p / 8] |= (uint8_t)(parity_bit(q, sources, a, p) << (p % 8));
    }
}

void encode_packet(const question *q, const uint8_t *sources, uint64_t packet, uint8_t *out)
{
    if (packet <= q->k) {
        memcpy(out, sources + (packet - 1) * q->l, q->l);
    } else {
        encode_parity(q, sources, packet - q->k, out);
    }
}

void encode_survivors(const question *q, const uint8_t *sources, uint8_t *out)
{
    for (uint64_t i = 1; i <= q->k + q->m; i++) {
        if (at_hand(q, i)) {
            encode_packet(q, sources, i, out + packet_place(q, i));
        }
    }
}

answer model_encode_all(const question *q, uint8_t *output)
{
    uint64_t number = shape_number(q);
    if (number != WH_DONE) {
        return refused(number);
    }
    if (q->input.length != q->k * q->l) {
        return refused(WH_INPUT);
    }
    if (q->output.length != parities_bytes(q)) {
        return refused(WH_OUTPUT);
    }
    for (uint64_t a = 1; a <= q->m; a++) {
        encode_parity(q, q->input.at, a, output);
        output += packet_bytes(q, q->k + a);
    }
    return done();
}

answer model_encode_one(const question *q, uint8_t *output)
{
    uint64_t number = shape_number(q);
    if (number != WH_DONE) {
        return refused(number);
    }
    if (bad_packet(q)) {
        return refused(WH_PACKET);
    }
    if (q->input.length != q->k * q->l) {
        return refused(WH_INPUT);
    }
    if (q->output.length != packet_bytes(q, q->packet)) {
        return refused(WH_OUTPUT);
    }
    encode_packet(q, q->input.at, q->packet, output);
    return done();
}
