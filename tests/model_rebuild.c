/* Rebuild by elimination: every bit of every missing source is an unknown, every bit of every
 * parity at hand an equation. Only the stall and the count come from the walk. */
#include "check.h"
#include "model.h"

#include <string.h>

enum {
    UNKNOWNS_MOST = WH_MAX_K * 8 * WH_MAX_LENGTH,
    EQUATIONS_MOST = WH_MAX_M * (8 * WH_MAX_LENGTH + WH_MAX_SHIFT)
};

/* Equation i, one byte for each coefficient and one for the right side, starts at
 * i * (unknowns + 1). */
static uint8_t coefficients[EQUATIONS_MOST * (UNKNOWNS_MOST + 1)];
static size_t equations, unknowns;

static uint8_t *equation(size_t i)
{
    return coefficients + i * (unknowns + 1);
}

static uint8_t bit_at_hand(const question *q, uint64_t packet, uint64_t p)
{
    return bit_of(q->input.at + packet_place(q, packet), p);
}

/* The unknowns of source b stand after those of the missing sources below it. */
static size_t first_unknown(const question *q, uint64_t b)
{
    size_t below = 0;
    for (uint64_t c = 1; c < b; c++) {
        below += missing(q, c) ? 1 : 0;
    }
    return below * source_bits(q);
}

/* Bit p of parity a is the sum of the sources' bits that are shifted there. */
static void add_equation(const question *q, uint64_t a, uint64_t p)
{
    uint8_t *row = equation(equations++);
    memset(row, 0, unknowns + 1);
    row[unknowns] = bit_at_hand(q, q->k + a, p);
    for (uint64_t b = 1; b <= q->k; b++) {
        uint64_t shift = entry(q, a, b);
        if (p < shift || p - shift >= source_bits(q)) {
            continue;
        }
        if (missing(q, b)) {
            row[first_unknown(q, b) + (p - shift)] = 1;
        } else {
            row[unknowns] ^= bit_at_hand(q, b, p - shift);
        }
    }
}

static void write_equations(const question *q)
{
    equations = 0;
    unknowns = first_unknown(q, q->k + 1);
    for (uint64_t p = 0; p < 8 * WH_LONGEST; p++) {
        for (uint64_t a = 1; a <= q->m; a++) {
            if (at_hand(q, q->k + a) && p < parity_bits(q, a)) {
                add_equation(q, a, p);
            }
        }
    }
}

static void swap_equations(size_t i, size_t j)
{
    static uint8_t kept[UNKNOWNS_MOST + 1];
    memcpy(kept, equation(i), unknowns + 1);
    memcpy(equation(i), equation(j), unknowns + 1);
    memcpy(equation(j), kept, unknowns + 1);
}

/* Only from column `from` on, where the added equation has its first one. */
static void add_to_equation(size_t i, size_t added, size_t from)
{
    uint8_t *row = equation(i);
    const uint8_t *other = equation(added);
    for (size_t j = from; j <= unknowns; j++) {
        row[j] ^= other[j];
    }
}

/* Brings an equation that has unknown u, and none before it, to place u, and takes u out of all
 * after it. No such equation: more than one set of sources would do. */
static bool eliminate(size_t u)
{
    size_t i = u;
    while (i < equations && equation(i)[u] == 0) {
        i++;
    }
    if (i == equations) {
        return false;
    }
    swap_equations(u, i);
    for (i = u + 1; i < equations; i++) {
        if (equation(i)[u] == 1) {
            add_to_equation(i, u, u);
        }
    }
    return true;
}

/* After elimination the equations past the unknowns say 0 = right side. */
static bool contradicted(void)
{
    for (size_t i = unknowns; i < equations; i++) {
        if (equation(i)[unknowns] == 1) {
            return true;
        }
    }
    return false;
}

static void substitute_back(uint8_t *solution)
{
    for (size_t u = unknowns; u-- > 0;) {
        solution[u] = equation(u)[unknowns];
        for (size_t v = u + 1; v < unknowns; v++) {
            solution[u] ^= (uint8_t)(equation(u)[v] & solution[v]);
        }
    }
}

static void write_sources(const question *q, const uint8_t *solution, uint8_t *sources)
{
    memset(sources, 0, q->k * q->l);
    for (uint64_t b = 1; b <= q->k; b++) {
        for (uint64_t p = 0; p < source_bits(q); p++) {
            uint8_t bit = missing(q, b) ? solution[first_unknown(q, b) + p] : bit_at_hand(q, b, p);
            sources[(b - 1) * q->l + p / 8] |= (uint8_t)(bit << (p % 8));
        }
    }
}

/* Finds the sources that encode to the packets at hand; false when there are none. */
static bool solve(const question *q, uint8_t *sources)
{
    static uint8_t solution[UNKNOWNS_MOST];
    write_equations(q);
    for (size_t u = 0; u < unknowns; u++) {
        if (!eliminate(u)) {
            fail("model: a whole walk, yet more than one set of sources encodes alike");
        }
    }
    if (contradicted()) {
        return false;
    }
    substitute_back(solution);
    write_sources(q, solution, sources);
    return true;
}

static bool stray_one(const question *q)
{
    for (uint64_t a = 1; a <= q->m; a++) {
        uint64_t i = q->k + a;
        for (uint64_t p = parity_bits(q, a); at_hand(q, i) && p < 8 * packet_bytes(q, i); p++) {
            if (bit_at_hand(q, i, p) == 1) {
                return true;
            }
        }
    }
    return false;
}

/* The last three checks, and the sources where none refuses. */
static answer rebuild_sources(const question *q, uint8_t *sources)
{
    walked walk = walk_lowest_first(q);
    if (!whole(q, &walk)) {
        return numbered(WH_STALL, walk.count);
    }
    if (stray_one(q)) {
        return refused(WH_STRAY);
    }
    return solve(q, sources) ? done_with(walk.count) : refused(WH_FOREIGN);
}

answer model_rebuild(const question *q, uint8_t *output)
{
    uint8_t sources[WH_MAX_K * WH_MAX_LENGTH];
    uint64_t number = marked_shape_number(q);
    if (number != WH_DONE) {
        return refused(number);
    }
    if (q->input.length != survivors_bytes(q)) {
        return refused(WH_INPUT);
    }
    if (q->output.length != q->k * q->l) {
        return refused(WH_OUTPUT);
    }
    answer given = rebuild_sources(q, sources);
    if (given.number == WH_DONE) {
        memcpy(output, sources, q->k * q->l);
    }
    return given;
}

/* WH_PACKET for the packet or source asked for stands beside that of the marks. */
static uint64_t asked_number(const question *q, uint64_t asked, uint64_t most)
{
    uint64_t number = shape_number(q);
    if (number != WH_DONE) {
        return number;
    }
    return asked < 1 || asked > most ? WH_PACKET : marked_shape_number(q);
}

answer model_packet(const question *q, uint8_t *output)
{
    uint8_t sources[WH_MAX_K * WH_MAX_LENGTH];
    uint64_t number = asked_number(q, q->packet, q->k + q->m);
    if (number != WH_DONE) {
        return refused(number);
    }
    if (q->input.length != survivors_bytes(q)) {
        return refused(WH_INPUT);
    }
    if (q->output.length != packet_bytes(q, q->packet)) {
        return refused(WH_OUTPUT);
    }
    answer given = rebuild_sources(q, sources);
    if (given.number == WH_DONE) {
        encode_packet(q, sources, q->packet, output);
    }
    return refused(given.number);
}

answer model_look(const question *q, uint8_t *output)
{
    uint64_t number = asked_number(q, q->source, q->k);
    (void)output;
    if (number != WH_DONE) {
        return refused(number);
    }
    if (q->input.length != survivors_bytes(q) || q->rebuilt.length != q->k * q->l) {
        return refused(WH_INPUT);
    }
    bool present = at_hand(q, q->source);
    answer given = done_with(present ? 1 : 2);
    given.results[1] = present ? packet_place(q, q->source) : (q->source - 1) * q->l;
    given.results[2] = q->l;
    return given;
}
