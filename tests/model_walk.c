#include "model.h"
#include "random.h"

#include <string.h>

static bool unfinished(const question *q, const uint64_t *progress, uint64_t b)
{
    return missing(q, b) && progress[b - 1] < source_bits(q);
}

bool bare(const question *q, const uint64_t *progress, uint64_t a, uint64_t b)
{
    if (!at_hand(q, q->k + a) || !unfinished(q, progress, b)) {
        return false;
    }
    for (uint64_t c = 1; c <= q->k; c++) {
        bool covers = c != b && unfinished(q, progress, c);
        if (covers && entry(q, a, b) + progress[b - 1] >= entry(q, a, c) + progress[c - 1]) {
            return false;
        }
    }
    return true;
}

typedef struct {
    uint64_t parity, source;
} pair;

/* Lists the bare pairs, lowest parity first, then lowest source, until there are `most` of them,
 * and gives how many. */
static uint64_t bare_pairs(const question *q, const uint64_t *progress, pair *pairs, uint64_t most)
{
    uint64_t found = 0;
    for (uint64_t a = 1; a <= q->m; a++) {
        for (uint64_t b = 1; b <= q->k && found < most; b++) {
            if (bare(q, progress, a, b)) {
                pairs[found].parity = a;
                pairs[found].source = b;
                found++;
            }
        }
    }
    return found;
}

bool whole(const question *q, const walked *walk)
{
    for (uint64_t b = 1; b <= q->k; b++) {
        if (unfinished(q, walk->progress, b)) {
            return false;
        }
    }
    return true;
}

static void write_step(steps *list, const pair *taken)
{
    list->parities[list->length] = (uint8_t)taken->parity;
    list->sources[list->length] = (uint8_t)taken->source;
    list->length++;
}

/* Each step takes the chosen one of the first `most` bare pairs, and is written down unless there
 * is no list. */
static walked walk_among(const question *q, uint64_t most, chooser *choose, steps *list)
{
    walked walk = {0, {0}};
    pair pairs[WH_MAX_K * WH_MAX_M];
    uint64_t found = bare_pairs(q, walk.progress, pairs, most);
    while (found > 0) {
        const pair *taken = &pairs[choose(found)];
        if (list != NULL) {
            write_step(list, taken);
        }
        walk.progress[taken->source - 1]++;
        walk.count++;
        found = bare_pairs(q, walk.progress, pairs, most);
    }
    return walk;
}

uint64_t the_first(uint64_t found)
{
    (void)found;
    return 0;
}

uint64_t the_last(uint64_t found)
{
    return found - 1;
}

walked walk_lowest_first(const question *q)
{
    return walk_among(q, 1, the_first, NULL);
}

walked walk_in_random_order(const question *q)
{
    return walk_among(q, WH_MAX_K * WH_MAX_M, random_below, NULL);
}

void list_steps(const question *q, chooser *choose, steps *list)
{
    list->length = 0;
    walk_among(q, WH_MAX_K * WH_MAX_M, choose, list);
}

answer model_walk(const question *q, uint8_t *output)
{
    uint64_t number = marked_shape_number(q);
    (void)output;
    if (number != WH_DONE) {
        return refused(number);
    }
    walked walk = walk_lowest_first(q);
    answer given = done();
    given.results[0] = walk.count;
    given.results[1] = whole(q, &walk) ? 1 : 0;
    memcpy(&given.results[2], walk.progress, sizeof walk.progress);
    return given;
}

static bool bad_progress(const question *q)
{
    for (uint64_t b = 1; b <= WH_MAX_K; b++) {
        bool has_none = b > q->k || at_hand(q, b);
        if (q->progress[b - 1] > (has_none ? 0 : source_bits(q))) {
            return true;
        }
    }
    return false;
}

answer model_next_step(const question *q, uint8_t *output)
{
    uint64_t number = marked_shape_number(q);
    pair pairs[WH_MAX_K * WH_MAX_M];
    (void)output;
    if (number != WH_DONE) {
        return refused(number);
    }
    if (bad_progress(q)) {
        return refused(WH_PROGRESS);
    }
    answer given = done();
    memcpy(&given.results[2], q->progress, sizeof q->progress);
    if (bare_pairs(q, q->progress, pairs, 1) > 0) {
        given.results[0] = pairs[0].parity;
        given.results[1] = pairs[0].source;
        given.results[2 + pairs[0].source - 1]++;
    }
    return given;
}
