#include "draw_question.h"

#include "random.h"

static uint64_t *number_at(question *q, size_t place)
{
    uint64_t *numbers[PROGRESS_PLACE] = {&q->k,     &q->m,      &q->l,      &q->family, &q->stripes,
                                         &q->marks, &q->packet, &q->source, &q->size};
    if (place < PROGRESS_PLACE) {
        return numbers[place];
    }
    return place < LENGTH_PLACE ? &q->progress[place - PROGRESS_PLACE] : NULL;
}

static bytes *buffer_at(question *q, size_t place)
{
    bool is_length = place >= LENGTH_PLACE && place < BYTE_PLACE;
    return is_length ? lent_buffer(q, place - LENGTH_PLACE) : NULL;
}

/* Near what was there, at the limits, and what looks like the old number when bits are cut. */
static uint64_t telling_number(uint64_t old, size_t value)
{
    const uint64_t telling[TELLING_VALUES] = {
        old + 1,
        old - 1,
        0,
        1,
        2,
        3,
        WH_FAMILIES + 1,
        WH_MAX_K - 1,
        WH_MAX_K,
        WH_MAX_K + 1,
        12,
        WH_MAX_K + WH_MAX_M - 1,
        WH_MAX_K + WH_MAX_M,
        WH_MAX_K + WH_MAX_M + 1,
        WH_MAX_LENGTH,
        WH_MAX_LENGTH + 1,
        8 * WH_MAX_LENGTH,
        8 * WH_MAX_LENGTH + 1,
        WH_MAX_INFORMATION,
        WH_MAX_INFORMATION + 1,
        old + 256,
        old + 65536,
        old + ((uint64_t)1 << 32),
        old | (uint64_t)1 << 16,
        old | (uint64_t)1 << 63,
        65535,
        (uint64_t)1 << 61,
        (uint64_t)1 << 63,
        UINT64_MAX,
    };
    return telling[value];
}

static size_t telling_length(size_t old, size_t value)
{
    const size_t telling[] = {old + 1, old > 0 ? old - 1 : 0, 0, 1, old / 2, old + 8, BYTES_MOST};
    size_t length = telling[value % (sizeof telling / sizeof telling[0])];
    return length <= BYTES_MOST ? length : BYTES_MOST;
}

static bytes *bytes_at(question *q, size_t place)
{
    bytes *spoiled[SPOILED_PLACES - BYTE_PLACE] = {&q->table, &q->input, &q->step_parities,
                                                   &q->step_sources};
    return spoiled[place - BYTE_PLACE];
}

static void spoil_byte(bytes *at, size_t value)
{
    static const uint8_t telling[] = {
        0, 1, WH_MAX_K + 1, 0x20, WH_MAX_SHIFT - 1, WH_MAX_SHIFT, WH_MAX_SHIFT + 1, 0x60, 128, 255,
    };
    if (at->length > 0) {
        at->at[random_below(at->length)] = telling[value % sizeof telling];
    }
}

void spoil_place(question *q, size_t place, size_t value)
{
    uint64_t *number = number_at(q, place);
    bytes *buffer = buffer_at(q, place);
    if (number != NULL) {
        *number = telling_number(*number, value);
    } else if (buffer != NULL) {
        buffer->length = telling_length(buffer->length, value);
    } else {
        spoil_byte(bytes_at(q, place), value);
    }
}

void spoil(question *q)
{
    spoil_place(q, (size_t)random_below(SPOILED_PLACES), (size_t)random_below(TELLING_VALUES));
}
