/* The limits, the families and the list of numbers of docs/RULES.md. Digits stand for them here and
 * nowhere else: all other files say their names, so a name that had another value would be found
 * out here. */
#include "check.h"
#include "windhawker_limits.h"

typedef struct {
    const char *name;
    int value;
    int in_the_rules;
} pinned;

static void expect_pinned(const pinned *names, size_t count)
{
    for (size_t i = 0; i < count; i++) {
        if (names[i].value != names[i].in_the_rules) {
            fail("%s is %d, not %d", names[i].name, names[i].value, names[i].in_the_rules);
        }
    }
}

static void limits(void)
{
    static const pinned names[] = {
        {"WH_MAX_K", WH_MAX_K, 8},
        {"WH_MAX_M", WH_MAX_M, 8},
        {"WH_MAX_LENGTH", WH_MAX_LENGTH, 56},
        {"WH_MAX_SHIFT", WH_MAX_SHIFT, 64},
        {"WH_LONGEST", WH_LONGEST, 64},
        {"WH_FAMILIES", WH_FAMILIES, 3},
        {"WH_MAX_STRIPES", WH_MAX_STRIPES, 16},
        {"WH_MAX_INFORMATION", WH_MAX_INFORMATION, 254},
        {"WH_BLOCKS_LONGEST", WH_BLOCKS_LONGEST, 320},
    };
    expect_pinned(names, sizeof names / sizeof names[0]);
}

static void families(void)
{
    static const pinned names[] = {
        {"WH_HOUSE", WH_HOUSE, 1},
        {"WH_HANKEL", WH_HANKEL, 2},
        {"WH_VANDERMONDE", WH_VANDERMONDE, 3},
    };
    expect_pinned(names, sizeof names / sizeof names[0]);
}

static void numbers(void)
{
    static const pinned names[] = {
        {"WH_DONE", WH_DONE, 0},
        {"WH_SIZE", WH_SIZE, 1},
        {"WH_LENGTH", WH_LENGTH, 2},
        {"WH_TABLE", WH_TABLE, 3},
        {"WH_INPUT", WH_INPUT, 4},
        {"WH_OUTPUT", WH_OUTPUT, 5},
        {"WH_PACKET", WH_PACKET, 6},
        {"WH_MARKS", WH_MARKS, 7},
        {"WH_STALL", WH_STALL, 8},
        {"WH_STRAY", WH_STRAY, 9},
        {"WH_FOREIGN", WH_FOREIGN, 10},
        {"WH_BLOCK_SHORT", WH_BLOCK_SHORT, 11},
        {"WH_BLOCK_RESERVED", WH_BLOCK_RESERVED, 12},
        {"WH_BLOCK_LENGTH", WH_BLOCK_LENGTH, 13},
        {"WH_BLOCK_SUM", WH_BLOCK_SUM, 14},
        {"WH_BLOCK_HEADER", WH_BLOCK_HEADER, 15},
        {"WH_ROOM", WH_ROOM, 16},
        {"WH_PROGRESS", WH_PROGRESS, 17},
        {"WH_LINE", WH_LINE, 18},
        {"WH_FAMILY", WH_FAMILY, 19},
        {"WH_BLOCK_TURN", WH_BLOCK_TURN, 20},
        {"WH_BLOCK_END", WH_BLOCK_END, 21},
        {"WH_STEPS_UNEQUAL", WH_STEPS_UNEQUAL, 22},
        {"WH_STEP_NOT_BARE", WH_STEP_NOT_BARE, 23},
        {"WH_STEPS_EARLY", WH_STEPS_EARLY, 24},
        {"WH_STRIPES", WH_STRIPES, 25},
        {"WH_CUT", WH_CUT, 36},
    };
    expect_pinned(names, sizeof names / sizeof names[0]);
}

int main(void)
{
    static const named_test tests[] = {
        {"pinned_limits", limits},
        {"pinned_families", families},
        {"pinned_numbers", numbers},
    };
    return run_named_tests(tests, sizeof tests / sizeof tests[0]);
}
