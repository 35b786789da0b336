#include "model.h"

/* Any byte may stand in a list. One that is no parity or no source is in no bare pair. */
static bool names_a_pair(const question *q, uint64_t a, uint64_t b)
{
    return a >= 1 && a <= q->m && b >= 1 && b <= q->k;
}

answer answer_to_steps(const question *q, const uint8_t *parities, const uint8_t *sources,
                       size_t length)
{
    walked walk = {0, {0}};
    while (walk.count < length) {
        uint64_t a = parities[walk.count], b = sources[walk.count];
        if (!names_a_pair(q, a, b) || !bare(q, walk.progress, a, b)) {
            return numbered(WH_STEP_NOT_BARE, walk.count + 1);
        }
        walk.progress[b - 1]++;
        walk.count++;
    }
    return whole(q, &walk) ? done() : numbered(WH_STEPS_EARLY, length);
}

answer model_check_steps(const question *q, uint8_t *output)
{
    uint64_t number = marked_shape_number(q);
    (void)output;
    if (number != WH_DONE) {
        return refused(number);
    }
    if (q->step_parities.length != q->step_sources.length) {
        return refused(WH_STEPS_UNEQUAL);
    }
    return answer_to_steps(q, q->step_parities.at, q->step_sources.at, q->step_parities.length);
}
