/* Orders of steps: drawn ones, the library's own, and lists that are one edit away from one. */
#include "calls_steps.h"
#include "random.h"

#include <string.h>

/* Of one step at least, and short enough that there is room for one more. Every other table has
 * small shifts, and so more ties. */
static void draw_order(question *q)
{
    bool small_shifts = random_below(2) == 0;
    do {
        draw_small_shape(q, WH_MAX_K, 9);
        for (size_t i = 0; i < q->table.length && small_shifts; i++) {
            q->table.at[i] = (uint8_t)random_below(4);
        }
        draw_marks(q);
        fit_steps(q);
    } while (q->step_parities.length == 0);
}

static wh_walked walk_of(const question *q)
{
    wh_walked walked = wh_walk(q->k, q->m, q->l, q->table.at, q->table.length, q->marks);
    expect_number(walked.number, WH_DONE);
    return walked;
}

/* An order until nothing is bare has the steps of the walk. Where that is whole it is accepted,
 * else it ends early. Gives whether it is whole. */
static bool expect_as_walked(const question *q)
{
    wh_walked walked = walk_of(q);
    bool is_whole = walked.whole == 1;
    if (q->step_parities.length != walked.count) {
        fail("%zu steps, walk has %" PRIu64, q->step_parities.length, walked.count);
    }
    expect_checked(q, is_whole ? WH_DONE : WH_STEPS_EARLY, is_whole ? 0 : walked.count);
    return is_whole;
}

/* Several orders of each walk. */
static void drawn_orders(void)
{
    int whole_ones = 0, stalled = 0;
    question q;
    for (int i = 0; i < 800; i++) {
        draw_order(&q);
        for (int order = 0; order < 4; order++) {
            fit_steps(&q);
            bool is_whole = expect_as_walked(&q);
            whole_ones += is_whole ? 1 : 0;
            stalled += is_whole ? 0 : 1;
        }
    }
    if (whole_ones < 1000 || stalled < 200) {
        fail("only %d whole ones and %d that stall", whole_ones, stalled);
    }
}

static void order_of_next_steps(void)
{
    question q;
    for (int i = 0; i < 400; i++) {
        draw_small_shape(&q, WH_MAX_K, 4);
        draw_marks(&q);
        wh_stepped stepped =
            wh_next_step(q.k, q.m, q.l, q.table.at, q.table.length, q.marks, q.progress);
        while (stepped.parity != 0) {
            add_step(&q, stepped.parity, stepped.source);
            stepped =
                wh_next_step(q.k, q.m, q.l, q.table.at, q.table.length, q.marks, stepped.progress);
        }
        expect_as_walked(&q);
    }
}

/* ---- One edit -------------------------------------------------------------------------------- */

/* Often the first or the last, else any. */
static size_t telling_step(const question *q)
{
    size_t length = q->step_parities.length;
    switch (random_below(4)) {
    case 0:
        return 0;
    case 1:
        return length - 1;
    default:
        return (size_t)random_below(length);
    }
}

static void change_entry(question *q)
{
    bytes *list = random_below(2) == 0 ? &q->step_parities : &q->step_sources;
    list->at[telling_step(q)] = (uint8_t)random_below(WH_MAX_K + 2);
}

static void exchange(bytes *list, size_t i, size_t j)
{
    uint8_t old = list->at[i];
    list->at[i] = list->at[j];
    list->at[j] = old;
}

/* Of two steps the parities, the sources or both. */
static void exchange_entries(question *q)
{
    size_t i = telling_step(q), j = telling_step(q);
    uint64_t left_alone = random_below(3);
    if (left_alone != 0) {
        exchange(&q->step_parities, i, j);
    }
    if (left_alone != 1) {
        exchange(&q->step_sources, i, j);
    }
}

static void leave_out(bytes *list, size_t place)
{
    list->length--;
    memmove(list->at + place, list->at + place + 1, list->length - place);
}

static void leave_out_step(question *q)
{
    size_t place = telling_step(q);
    leave_out(&q->step_parities, place);
    leave_out(&q->step_sources, place);
}

static void put_in(bytes *list, size_t place, uint64_t added)
{
    memmove(list->at + place + 1, list->at + place, list->length - place);
    list->at[place] = (uint8_t)added;
    list->length++;
}

/* Any pair, before a step or behind the last. */
static void put_in_step(question *q)
{
    size_t place = random_below(3) == 0 ? q->step_parities.length : telling_step(q);
    put_in(&q->step_parities, place, random_between(1, q->m));
    put_in(&q->step_sources, place, random_between(1, q->k));
}

static void cut_off(question *q)
{
    set_steps(q, telling_step(q));
}

/* Answers seen, by where their place is in the order that was edited. */
enum { START, BETWEEN, END, PARTS };

typedef struct {
    int done, not_bare[PARTS], early[PARTS];
} answers_seen;

static int part_of(uint64_t place, uint64_t length)
{
    if (place <= 1) {
        return START;
    }
    return place + 1 < length ? BETWEEN : END;
}

static void count_answer(answers_seen *seen, const answer *given, uint64_t length)
{
    int part = part_of(given->results[0], length);
    switch (given->number) {
    case WH_DONE:
        seen->done++;
        break;
    case WH_STEP_NOT_BARE:
        seen->not_bare[part]++;
        break;
    case WH_STEPS_EARLY:
        seen->early[part]++;
        break;
    default:
        fail("number %" PRIu64, given->number);
    }
}

static void expect_all_seen(const answers_seen *seen)
{
    bool all = seen->done >= 1000;
    for (int part = 0; part < PARTS; part++) {
        all = all && seen->not_bare[part] >= 1000 && seen->early[part] >= 1000;
    }
    if (!all) {
        fail("done %d, not bare %d %d %d, early %d %d %d", seen->done, seen->not_bare[START],
             seen->not_bare[BETWEEN], seen->not_bare[END], seen->early[START], seen->early[BETWEEN],
             seen->early[END]);
    }
}

typedef void edit(question *q);

static void orders_with_one_edit(void)
{
    static edit *const edits[] = {change_entry, exchange_entries, leave_out_step, put_in_step,
                                  cut_off};
    enum { EDITS = sizeof edits / sizeof edits[0] };
    answers_seen seen = {0};
    question order;
    for (int i = 0; i < 1000; i++) {
        draw_order(&order);
        wh_walked walked = walk_of(&order);
        for (int turn = 0; turn < 4 * EDITS; turn++) {
            question q = order;
            edits[turn % EDITS](&q);
            answer given = compare(&check_steps_call, &q);
            count_answer(&seen, &given, order.step_parities.length);
            bool as_walked = walked.whole == 1 && q.step_parities.length == walked.count;
            if (given.number == WH_DONE && !as_walked) {
                fail("accepted, and the walk stalls or has other steps");
            }
        }
    }
    expect_all_seen(&seen);
}

int main(void)
{
    static const named_test tests[] = {
        {"steps_drawn_orders", drawn_orders},
        {"steps_order_of_next_steps", order_of_next_steps},
        {"steps_orders_with_one_edit", orders_with_one_edit},
    };
    return run_named_tests(tests, sizeof tests / sizeof tests[0]);
}
