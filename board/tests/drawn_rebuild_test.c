/* Rebuild, rebuild log, packet and look at drawn questions; some of the packets are damaged. */
#include "calls_log.h"
#include "calls_packet.h"
#include "calls_rebuild.h"
#include "check.h"

static void compare_drawn(const call *asked)
{
    compare_any_numbers(asked, 1);
    compare_spoiled(asked, 300);
}

static void rebuild(void)
{
    compare_drawn(&rebuild_call);
}

static void rebuild_log(void)
{
    compare_drawn(&rebuild_log_call);
}

/* Sources 1, 2 and 4 missing, parities 1, 2 and 4 at hand: these are uncovered step by step. As
 * many stripes as there can be; then a bit turned over in each. */
static void log_of_an_uneven_set(void)
{
    question q = house_question(4, 4, 2);
    q.marks = 0xB4;
    q.stripes = WH_MAX_STRIPES;
    fit_log(&q);
    compare(&rebuild_log_call, &q);
    size_t stripe = (size_t)survivors_bytes(&q);
    for (size_t t = 0; t < q.stripes; t++) {
        q.input.at[t * stripe + stripe - 1] ^= 1;
        compare(&rebuild_log_call, &q);
        q.input.at[t * stripe + stripe - 1] ^= 1;
    }
}

static void packet(void)
{
    compare_drawn(&packet_call);
}

static void look(void)
{
    compare_drawn(&look_call);
}

static void damaged_packets(void)
{
    compare_damaged(300);
}

/* As many sources and parities as there can be, as long as they can be, all sources missing; then a
 * bit turned over. */
static void at_the_limits(void)
{
    question q = longest_question();
    lose_every_source(&q);
    fit_survivors(&q, q.k * q.l);
    compare(&rebuild_call, &q);
    q.input.at[100] ^= 4;
    compare(&rebuild_call, &q);
    q.stripes = 1;
    compare(&rebuild_log_call, &q);
}

int main(void)
{
    static const named_test tests[] = {
        {"drawn_rebuild", rebuild},
        {"drawn_rebuild_log", rebuild_log},
        {"drawn_log_of_an_uneven_set", log_of_an_uneven_set},
        {"drawn_packet", packet},
        {"drawn_look", look},
        {"drawn_damaged_packets", damaged_packets},
        {"drawn_rebuild_at_the_limits", at_the_limits},
    };
    return run_named_tests(tests, sizeof tests / sizeof tests[0]);
}
