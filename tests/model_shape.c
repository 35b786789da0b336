#include "model.h"

bool bad_size(const question *q)
{
    return q->k < 1 || q->k > WH_MAX_K || q->m < 1 || q->m > WH_MAX_M;
}

bool bad_length(const question *q)
{
    return q->l < 1 || q->l > WH_MAX_LENGTH;
}

bool bad_table(const question *q)
{
    if (q->table.length != q->m * q->k) {
        return true;
    }
    return largest_entry(q) > WH_MAX_SHIFT;
}

bool bad_packet(const question *q)
{
    return q->packet < 1 || q->packet > q->k + q->m;
}

static bool bad_mark(const question *q)
{
    for (uint64_t j = 0; j < 64; j++) {
        if ((q->marks >> j & 1) == 1 && j + 1 > q->k + q->m) {
            return true;
        }
    }
    return false;
}

static uint64_t marks_set(const question *q)
{
    uint64_t set = 0;
    for (uint64_t j = 0; j < 64; j++) {
        set += q->marks >> j & 1;
    }
    return set;
}

uint64_t shape_number(const question *q)
{
    if (bad_size(q)) {
        return WH_SIZE;
    }
    if (bad_length(q)) {
        return WH_LENGTH;
    }
    return bad_table(q) ? WH_TABLE : WH_DONE;
}

uint64_t marked_shape_number(const question *q)
{
    uint64_t number = shape_number(q);
    if (number != WH_DONE) {
        return number;
    }
    if (bad_mark(q)) {
        return WH_PACKET;
    }
    return marks_set(q) != q->k ? WH_MARKS : WH_DONE;
}

uint64_t entry(const question *q, uint64_t a, uint64_t b)
{
    return q->table.at[(a - 1) * q->k + (b - 1)];
}

uint64_t largest_entry(const question *q)
{
    uint64_t largest = 0;
    for (size_t i = 0; i < q->table.length; i++) {
        if (q->table.at[i] > largest) {
            largest = q->table.at[i];
        }
    }
    return largest;
}

uint64_t source_bits(const question *q)
{
    return 8 * q->l;
}

uint64_t parity_bits(const question *q, uint64_t a)
{
    uint64_t furthest = 0;
    for (uint64_t b = 1; b <= q->k; b++) {
        if (entry(q, a, b) > furthest) {
            furthest = entry(q, a, b);
        }
    }
    return source_bits(q) + furthest;
}

/* The least whole number of bytes that holds a parity's bits, found by counting up. */
static uint64_t parity_bytes(const question *q, uint64_t a)
{
    uint64_t p = 0;
    while (8 * p < parity_bits(q, a)) {
        p++;
    }
    return p;
}

uint64_t packet_bytes(const question *q, uint64_t packet)
{
    return packet <= q->k ? q->l : parity_bytes(q, packet - q->k);
}

uint64_t parities_bytes(const question *q)
{
    uint64_t sum = 0;
    for (uint64_t a = 1; a <= q->m; a++) {
        sum += parity_bytes(q, a);
    }
    return sum;
}

bool at_hand(const question *q, uint64_t packet)
{
    return (q->marks >> (packet - 1) & 1) == 1;
}

bool missing(const question *q, uint64_t b)
{
    return !at_hand(q, b);
}

uint64_t packet_place(const question *q, uint64_t packet)
{
    uint64_t place = 0;
    for (uint64_t i = 1; i < packet; i++) {
        if (at_hand(q, i)) {
            place += packet_bytes(q, i);
        }
    }
    return place;
}

uint64_t survivors_bytes(const question *q)
{
    return packet_place(q, q->k + q->m + 1);
}

static bool differences_grow(const question *q, uint64_t a1, uint64_t a2, uint64_t b1, uint64_t b2)
{
    int64_t above = (int64_t)entry(q, a1, b2) - (int64_t)entry(q, a1, b1);
    int64_t below = (int64_t)entry(q, a2, b2) - (int64_t)entry(q, a2, b1);
    return above < below;
}

static bool rows_grow(const question *q, uint64_t a1, uint64_t a2)
{
    for (uint64_t b1 = 1; b1 <= q->k; b1++) {
        for (uint64_t b2 = b1 + 1; b2 <= q->k; b2++) {
            if (!differences_grow(q, a1, a2, b1, b2)) {
                return false;
            }
        }
    }
    return true;
}

answer model_judge(const question *q, uint8_t *output)
{
    (void)output;
    if (bad_size(q)) {
        return refused(WH_SIZE);
    }
    if (bad_table(q)) {
        return refused(WH_TABLE);
    }
    for (uint64_t a1 = 1; a1 <= q->m; a1++) {
        for (uint64_t a2 = a1 + 1; a2 <= q->m; a2++) {
            if (!rows_grow(q, a1, a2)) {
                return done_with(0);
            }
        }
    }
    return done_with(1);
}

answer model_packet_length(const question *q, uint8_t *output)
{
    uint64_t number = shape_number(q);
    (void)output;
    if (number != WH_DONE) {
        return refused(number);
    }
    return bad_packet(q) ? refused(WH_PACKET) : done_with(packet_bytes(q, q->packet));
}

answer model_parities_length(const question *q, uint8_t *output)
{
    uint64_t number = shape_number(q);
    (void)output;
    return number != WH_DONE ? refused(number) : done_with(parities_bytes(q));
}

answer model_survivors_length(const question *q, uint8_t *output)
{
    uint64_t number = marked_shape_number(q);
    (void)output;
    return number != WH_DONE ? refused(number) : done_with(survivors_bytes(q));
}
