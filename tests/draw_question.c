#include "draw_question.h"

#include "model.h"
#include "random.h"

#include <string.h>

void set_bytes(bytes *to, uint64_t length)
{
    to->length = (size_t)length;
    random_bytes(to->at, to->length);
}

void set_family_table(question *q, uint64_t family)
{
    q->family = family;
    q->table.length = (size_t)(q->m * q->k);
    write_family_table(q, q->table.at);
}

void set_house_table(question *q)
{
    set_family_table(q, WH_HOUSE);
}

question house_question(uint64_t k, uint64_t m, uint64_t l)
{
    question q = {0};
    q.k = k;
    q.m = m;
    q.l = l;
    set_house_table(&q);
    return q;
}

question largest_question(void)
{
    return house_question(WH_MAX_K, WH_MAX_M, WH_MAX_LENGTH);
}

question longest_question(void)
{
    question q = largest_question();
    for (uint64_t a = 1; a <= q.m; a++) {
        uint8_t raise = (uint8_t)(WH_MAX_SHIFT - entry(&q, a, q.k)); /* its largest is its last */
        for (uint64_t b = 1; b <= q.k; b++) {
            q.table.at[(a - 1) * q.k + (b - 1)] += raise;
        }
    }
    return q;
}

question family_question(uint64_t table)
{
    question q = {0};
    q.k = table / WH_MAX_M % WH_MAX_K + 1;
    q.m = table % WH_MAX_M + 1;
    q.l = 1;
    set_family_table(&q, table / WH_MAX_M / WH_MAX_K + 1);
    return q;
}

static void set_table_below(question *q, uint64_t bound)
{
    q->table.length = (size_t)(q->m * q->k);
    for (size_t i = 0; i < q->table.length; i++) {
        q->table.at[i] = (uint8_t)random_below(bound);
    }
}

/* The table of any family; then one entry of it changed, or the whole of it moved up. */
static void draw_family_table(question *q)
{
    set_family_table(q, random_between(1, WH_FAMILIES));
}

static void draw_bent_family_table(question *q)
{
    draw_family_table(q);
    q->table.at[random_below(q->table.length)] = (uint8_t)random_below(WH_MAX_SHIFT + 1);
}

static void draw_raised_family_table(question *q)
{
    draw_family_table(q);
    uint8_t raise = (uint8_t)random_below(WH_MAX_SHIFT + 1 - largest_entry(q));
    for (size_t i = 0; i < q->table.length; i++) {
        q->table.at[i] = (uint8_t)(q->table.at[i] + raise);
    }
}

/* Each row below a bound of its own, so that low rows stand beside high ones. */
static void draw_uneven_table(question *q)
{
    static const uint64_t bounds[] = {1, 2, 8, 10, 18, WH_MAX_SHIFT + 1};
    q->table.length = (size_t)(q->m * q->k);
    for (size_t i = 0; i < q->table.length;) {
        uint64_t bound = bounds[random_below(sizeof bounds / sizeof bounds[0])];
        do {
            q->table.at[i++] = (uint8_t)random_below(bound);
        } while (i % q->k != 0);
    }
}

void draw_table(question *q)
{
    switch (random_below(9)) {
    case 0:
    case 1:
    case 2:
        draw_family_table(q);
        break;
    case 3:
        draw_raised_family_table(q);
        break;
    case 4:
        draw_bent_family_table(q);
        break;
    case 5:
    case 6:
        draw_uneven_table(q);
        break;
    default:
        set_table_below(q, random_between(1, WH_MAX_SHIFT + 1));
    }
}

void draw_small_shape(question *q, uint64_t most, uint64_t longest)
{
    memset(q, 0, sizeof *q);
    q->k = random_between(1, most);
    q->m = random_between(1, most);
    q->l = random_between(1, longest);
    draw_table(q);
}

/* Mostly short sources, sometimes long ones, sometimes the longest. */
void draw_shape(question *q)
{
    static const uint64_t longest[] = {2, 2, 4, 4, 9, WH_MAX_LENGTH};
    draw_small_shape(q, WH_MAX_K, longest[random_below(6)]);
    if (random_below(40) == 0) {
        q->l = WH_MAX_LENGTH;
    }
}

bool next_choice(question *q)
{
    do {
        q->marks++;
    } while (marked_shape_number(q) == WH_MARKS);
    return marked_shape_number(q) == WH_DONE;
}

void draw_marks(question *q)
{
    q->marks = 0;
    for (uint64_t set = 0; set < q->k;) {
        uint64_t mark = (uint64_t)1 << random_below(q->k + q->m);
        set += (q->marks & mark) == 0 ? 1 : 0;
        q->marks |= mark;
    }
}

/* C gives no meaning to a shift by 64 or more. */
void keep_every_source(question *q)
{
    q->marks = q->k < 64 ? ((uint64_t)1 << q->k) - 1 : UINT64_MAX;
}

void lose_every_source(question *q)
{
    keep_every_source(q);
    q->marks <<= q->k;
}

void ask_at_all_small_marks(void (*ask)(question *q))
{
    for (uint64_t shape = 0; shape < 27; shape++) {
        question q = house_question(shape / 9 + 1, shape / 3 % 3 + 1, shape % 3 + 1);
        for (q.marks = 0; q.marks < (uint64_t)2 << (q.k + q.m); q.marks++) {
            for (int i = 0; i < 4; i++) {
                draw_table(&q);
                ask(&q);
            }
        }
    }
}

void fit_sources(question *q, uint64_t output_length)
{
    set_bytes(&q->input, q->k * q->l);
    set_bytes(&q->output, output_length);
}

void fit_survivors(question *q, uint64_t output_length)
{
    fit_sources(q, output_length);
    bytes sources = q->input;
    q->input.length = (size_t)survivors_bytes(q);
    encode_survivors(q, sources.at, q->input.at);
}

/* A bit turned over, a byte set, the last byte of a parity spoiled, or nothing left as it was. */
void damage(bytes *packets)
{
    uint8_t *byte = &packets->at[random_below(packets->length)];
    switch (random_below(5)) {
    case 0:
    case 1:
        *byte ^= (uint8_t)(1 << random_below(8));
        break;
    case 2:
        *byte = (uint8_t)random_below(256);
        break;
    case 3:
        packets->at[packets->length - 1] ^= (uint8_t)(0x80 >> random_below(8));
        break;
    default:
        random_bytes(packets->at, packets->length);
    }
}

void encode_log(question *q, const uint8_t *sources)
{
    size_t packets = (size_t)survivors_bytes(q), stripe = (size_t)(q->k * q->l);
    q->input.length = (size_t)q->stripes * packets;
    for (size_t t = 0; t < q->stripes; t++) {
        encode_survivors(q, sources + t * stripe, q->input.at + t * packets);
    }
}

void fit_log(question *q)
{
    bytes sources;
    set_bytes(&sources, q->stripes * q->k * q->l);
    set_bytes(&q->output, sources.length);
    encode_log(q, sources.at);
}

void damage_stripe(question *q, uint64_t t)
{
    question stripe = stripe_question(q, t);
    damage(&stripe.input);
    memcpy(q->input.at + t * stripe.input.length, stripe.input.at, stripe.input.length);
}

void fit_steps(question *q)
{
    steps list;
    list_steps(q, random_below, &list);
    size_t length = list.length < BYTES_MOST ? list.length : BYTES_MOST;
    q->step_parities.length = q->step_sources.length = length;
    memcpy(q->step_parities.at, list.parities, length);
    memcpy(q->step_sources.at, list.sources, length);
}

void draw_for_family_table(question *q)
{
    draw_shape(q);
    q->family = random_between(1, WH_FAMILIES);
    set_bytes(&q->output, q->m * q->k);
}

void draw_for_judge(question *q)
{
    draw_shape(q);
}

void draw_for_packet_length(question *q)
{
    draw_shape(q);
    q->packet = random_between(1, q->k + q->m);
}

void draw_for_parities_length(question *q)
{
    draw_shape(q);
}

void draw_for_survivors_length(question *q)
{
    draw_shape(q);
    draw_marks(q);
}

void draw_for_encode_all(question *q)
{
    draw_shape(q);
    fit_sources(q, parities_bytes(q));
}

void draw_for_walk(question *q)
{
    draw_for_survivors_length(q);
}

/* Progress that the range allows, most of it such that no walk comes there. */
void draw_for_next_step(question *q)
{
    draw_for_survivors_length(q);
    for (uint64_t b = 1; b <= q->k; b++) {
        q->progress[b - 1] = missing(q, b) ? random_between(0, source_bits(q)) : 0;
    }
}

/* A complete order, or as far as it goes before a stall; or, one in four, cut off anywhere. */
void draw_for_check_steps(question *q)
{
    draw_for_survivors_length(q);
    fit_steps(q);
    if (random_below(4) == 0) {
        q->step_parities.length = (size_t)random_below(q->step_parities.length + 1);
        q->step_sources.length = q->step_parities.length;
    }
}

void draw_for_rebuild(question *q)
{
    draw_for_survivors_length(q);
    fit_survivors(q, q->k * q->l);
    if (random_below(2) == 0) {
        damage(&q->input);
    }
}

/* As many stripes as the input has room for, at most. One, two or, one in three, none of them is
 * damaged. */
void draw_for_rebuild_log(question *q)
{
    draw_for_survivors_length(q);
    uint64_t room = WH_MAX_K * WH_LONGEST / survivors_bytes(q);
    q->stripes = random_between(1, room < WH_MAX_STRIPES ? room : WH_MAX_STRIPES);
    fit_log(q);
    for (uint64_t damaged = random_below(3); damaged > 0; damaged--) {
        damage_stripe(q, random_below(q->stripes));
    }
}

/* One in four where no source is missing. */
void draw_for_packet(question *q)
{
    if (random_below(4) == 0) {
        draw_for_packet_of_sources(q);
        return;
    }
    draw_for_rebuild(q);
    q->packet = random_between(1, q->k + q->m);
    set_bytes(&q->output, packet_bytes(q, q->packet));
}

void draw_for_packet_of_sources(question *q)
{
    draw_for_packet_length(q);
    keep_every_source(q);
    fit_sources(q, packet_bytes(q, q->packet));
}

void draw_for_look(question *q)
{
    draw_for_survivors_length(q);
    q->source = random_between(1, q->k);
    set_bytes(&q->input, survivors_bytes(q));
    set_bytes(&q->rebuilt, q->k * q->l);
}

/* A block with that many random bytes of information, behind what is there. */
static void draw_block(bytes *blocks, uint8_t pcb, uint64_t length)
{
    bytes information;
    set_bytes(&information, length);
    add_block(blocks, pcb, information.at, information.length);
}

/* A good block, and a destination that may be too short. */
void draw_for_block(question *q)
{
    memset(q, 0, sizeof *q);
    uint8_t pcb = pcb_with(random_below(2), random_below(2));
    draw_block(&q->input, pcb, random_below(WH_MAX_INFORMATION + 1));
    set_bytes(&q->output, random_below(300));
}

/* A good run; or, one in three, with a bit of one PCB turned over: M, N(S), or one that no I-block
 * has. The destination is mostly as long as the information, and may be too short. */
void draw_for_read_blocks(question *q)
{
    static const uint64_t longest[] = {0, 1, 3, 32, 100, WH_MAX_INFORMATION};
    uint64_t most = longest[random_below(6)];
    uint64_t count = random_between(1, most == WH_MAX_INFORMATION ? 2 : 5);
    uint64_t bent = random_below(3 * count);
    memset(q, 0, sizeof *q);
    for (uint64_t i = 0; i < count; i++) {
        unsigned turned = i == bent ? 0x20u << random_below(3) : 0;
        uint8_t pcb = (uint8_t)(pcb_with(i % 2, i + 1 < count) ^ turned);
        draw_block(&q->input, pcb, random_below(most + 1));
    }
    uint64_t information = q->input.length - count * BLOCK_FRAME;
    set_bytes(&q->output, random_below(3) > 0 ? information : random_below(q->input.length));
}

/* A packet of any length, blocks of any size, and a destination that may be too short. */
void draw_for_write_blocks(question *q)
{
    memset(q, 0, sizeof *q);
    q->size = random_between(1, random_below(2) == 0 ? 8 : WH_MAX_INFORMATION);
    set_bytes(&q->input, random_below(WH_LONGEST + 1));
    set_bytes(&q->output, random_below(WH_BLOCKS_LONGEST + 1));
}
