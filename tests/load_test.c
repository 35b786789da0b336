/* Random questions to random calls, some of them spoiled in a few places, each held to the model.
 *
 *   load_test           one round, for the gate
 *   load_test ROUNDS    so many rounds, each with other questions */
#include "calls.h"
#include "check.h"
#include "random.h"

#include <inttypes.h>
#include <stdio.h>
#include <stdlib.h>

/* A question is asked three times, with its buffers lent in three ways. */
enum { QUESTIONS = 7000, CALLS = 3 * QUESTIONS };

static uint64_t row;

static void ask_all(void)
{
    random_restart(row);
    for (int i = 0; i < QUESTIONS; i++) {
        compare_spoiled(calls[random_below(EVERY_CALL)], 1);
    }
}

int main(int words, char **word)
{
    uint64_t rounds = words > 1 ? strtoull(word[1], NULL, 10) : 1;
    int status = 0;
    for (row = 1; row <= rounds; row++) {
        char name[60];
        snprintf(name, sizeof name, "load_round_%" PRIu64 "_of_%d_calls", row, (int)CALLS);
        const named_test test = {name, ask_all};
        status |= run_named_tests(&test, 1);
    }
    return status;
}
