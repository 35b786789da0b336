/* Rebuild log, by one rebuild for each stripe. */
#include "model.h"

#include <string.h>

question stripe_question(const question *q, uint64_t t)
{
    question stripe = *q;
    stripe.input.length = (size_t)survivors_bytes(q);
    stripe.output.length = (size_t)(q->k * q->l);
    memcpy(stripe.input.at, q->input.at + t * stripe.input.length, stripe.input.length);
    return stripe;
}

static uint64_t striped_shape_number(const question *q)
{
    uint64_t number = shape_number(q);
    if (number != WH_DONE) {
        return number;
    }
    bool outside = q->stripes < 1 || q->stripes > WH_MAX_STRIPES;
    return outside ? WH_STRIPES : marked_shape_number(q);
}

/* A stall is that of the first stripe, and so none is good. */
answer model_rebuild_log(const question *q, uint8_t *output)
{
    uint64_t number = striped_shape_number(q), good = 0;
    if (number != WH_DONE) {
        return refused(number);
    }
    if (q->input.length != q->stripes * survivors_bytes(q)) {
        return refused(WH_INPUT);
    }
    if (q->output.length != q->stripes * q->k * q->l) {
        return refused(WH_OUTPUT);
    }
    answer one = done();
    while (good < q->stripes) {
        question stripe = stripe_question(q, good);
        one = model_rebuild(&stripe, output + good * stripe.output.length);
        if (one.number != WH_DONE) {
            break;
        }
        good++;
    }
    answer given = numbered(one.number, good);
    given.results[1] = one.results[0];
    return given;
}
