/* The longest lists of steps, which no question holds: eight missing sources of 56 bytes, a step
 * for each bit. Then lists longer than any right one. */
#include "calls_steps.h"
#include "check.h"
#include "random.h"

#include <inttypes.h>
#include <string.h>

enum { LONGEST = STEPS_MOST - 1 };

static void expect_place(const wh_checked *checked, uint64_t number, uint64_t place)
{
    if (checked->number != number || checked->place != place) {
        fail("%" PRIu64 " at %" PRIu64 ", not %" PRIu64 " at %" PRIu64, checked->number,
             checked->place, number, place);
    }
}

static void expect_lent(const question *q, const steps *list, lending way, uint64_t number,
                        uint64_t place)
{
    lent at = lend(q, way);
    lend_lists(&at, list->parities, list->sources, list->length, way);
    wh_checked checked =
        wh_check_steps(q->k, q->m, q->l, at.table, q->table.length, q->marks, at.step_parities,
                       list->length, at.step_sources, list->length);
    expect_place(&checked, number, place);
    if (memcmp(at.step_parities, list->parities, list->length) != 0 ||
        memcmp(at.step_sources, list->sources, list->length) != 0) {
        fail("a list has changed");
    }
}

/* The model is held to it too. */
static void expect_list(const question *q, const steps *list, uint64_t number, uint64_t place)
{
    answer model = answer_to_steps(q, list->parities, list->sources, list->length);
    if (model.number != number || model.results[0] != place) {
        fail("the model answers otherwise");
    }
    expect_lent(q, list, FLUSH_AT_END, number, place);
    expect_lent(q, list, FLUSH_AT_START, number, place);
}

/* One entry is another, and the list is refused there. */
static void expect_wrong_entry(const question *q, steps *list, uint8_t *entry_at, uint64_t other,
                               uint64_t place)
{
    uint8_t old = *entry_at;
    *entry_at = (uint8_t)other;
    expect_list(q, list, WH_STEP_NOT_BARE, place);
    *entry_at = old;
}

/* At its last step one bit is left. Any parity uncovers it, and no other source has one. */
static void expect_last_step(const question *q, steps *list)
{
    uint8_t *parity = &list->parities[LONGEST - 1], *source = &list->sources[LONGEST - 1];
    for (uint8_t i = 1; i <= WH_MAX_M; i++) {
        *parity = i;
        expect_list(q, list, WH_DONE, 0);
    }
    for (uint8_t i = 0; i <= WH_MAX_K + 1; i++) {
        if (i != *source) {
            expect_wrong_entry(q, list, source, i, LONGEST);
        }
    }
    expect_wrong_entry(q, list, parity, 0, LONGEST);
    expect_wrong_entry(q, list, parity, WH_MAX_M + 1, LONGEST);
    expect_wrong_entry(q, list, parity, 255, LONGEST);
}

/* Complete, one short, one too many, and with one entry wrong. */
static void expect_order(const question *q, chooser *choose)
{
    static const uint64_t places[] = {1, 2, 255, 256, 257, LONGEST / 2, LONGEST - 1, LONGEST};
    static steps list;
    list_steps(q, choose, &list);
    if (list.length != LONGEST) {
        fail("%zu steps", list.length);
    }
    expect_list(q, &list, WH_DONE, 0);
    list.length = LONGEST - 1;
    expect_list(q, &list, WH_STEPS_EARLY, LONGEST - 1);
    list.length = LONGEST + 1;
    list.parities[LONGEST] = list.sources[LONGEST] = 1;
    expect_list(q, &list, WH_STEP_NOT_BARE, LONGEST + 1);
    list.length = LONGEST;
    for (size_t i = 0; i < sizeof places / sizeof places[0]; i++) {
        expect_wrong_entry(q, &list, &list.parities[places[i] - 1], 0, places[i]);
        expect_wrong_entry(q, &list, &list.sources[places[i] - 1], 0, places[i]);
    }
    expect_last_step(q, &list);
}

/* The library's own order takes the lowest parity each time. */
static void expect_every_family(chooser *choose)
{
    question q = largest_question();
    lose_every_source(&q);
    for (uint64_t family = 1; family <= WH_FAMILIES; family++) {
        set_family_table(&q, family);
        expect_order(&q, choose);
    }
}

static void lowest_parity_first(void)
{
    expect_every_family(the_first);
}

static void highest_parity_first(void)
{
    expect_every_family(the_last);
}

static void random_order(void)
{
    expect_every_family(random_below);
}

static void expect_lengths(const uint8_t *parities, uint64_t parities_length,
                           const uint8_t *sources, uint64_t sources_length, uint64_t number,
                           uint64_t place)
{
    static const uint8_t table[4] = {0, 1, 0, 2};
    wh_checked checked =
        wh_check_steps(2, 2, 1, table, 4, 12, parities, parities_length, sources, sources_length);
    expect_place(&checked, number, place);
}

/* Sixteen steps are complete; with 65,536 more they are not, nor where one list has those. */
static void more_than_16_bits_count(void)
{
    enum { RIGHT = 16, MORE = 1 << 16 };
    static uint8_t parities[RIGHT + MORE], sources[RIGHT + MORE];
    static steps list;
    question q = house_question(2, 2, 1);
    lose_every_source(&q);
    list_steps(&q, random_below, &list);
    memset(parities, 1, sizeof parities);
    memset(sources, 2, sizeof sources);
    memcpy(parities, list.parities, RIGHT);
    memcpy(sources, list.sources, RIGHT);
    expect_lengths(parities, RIGHT, sources, RIGHT, WH_DONE, 0);
    expect_lengths(parities, RIGHT + MORE, sources, RIGHT + MORE, WH_STEP_NOT_BARE, RIGHT + 1);
    expect_lengths(parities, RIGHT + MORE, sources, RIGHT, WH_STEPS_UNEQUAL, 0);
    expect_lengths(parities, RIGHT, sources, RIGHT + MORE, WH_STEPS_UNEQUAL, 0);
}

int main(void)
{
    static const named_test tests[] = {
        {"steps_longest_lowest_parity_first", lowest_parity_first},
        {"steps_longest_highest_parity_first", highest_parity_first},
        {"steps_longest_random_order", random_order},
        {"steps_longest_more_than_16_bits_count", more_than_16_bits_count},
    };
    return run_named_tests(tests, sizeof tests / sizeof tests[0]);
}
