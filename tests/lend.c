#define _DEFAULT_SOURCE

#include "lend.h"

#include <stdio.h>
#include <stdlib.h>
#include <string.h>
#include <sys/mman.h>

/* A whole number of pages on every machine that the tests run on. */
enum { REGION = 65536 };

enum { PROGRESS, TABLE, INPUT, REBUILT, STEP_PARITIES, STEP_SOURCES, OUTPUT, REGIONS };

static uint8_t *regions[REGIONS];

static void give_up(const char *what)
{
    perror(what);
    exit(2);
}

/* A region that can be used, between two that cannot. */
static uint8_t *guarded_region(void)
{
    uint8_t *at = mmap(NULL, 4 * REGION, PROT_NONE, MAP_PRIVATE | MAP_ANONYMOUS, -1, 0);
    if (at == MAP_FAILED) {
        give_up("mmap");
    }
    at += 2 * REGION - (uintptr_t)at % REGION;
    if (mprotect(at, REGION, PROT_READ | PROT_WRITE) != 0) {
        give_up("mprotect");
    }
    return at;
}

static void *place(int region, const void *from, size_t length, lending way)
{
    if (regions[region] == NULL) {
        regions[region] = guarded_region();
    }
    if (way == NULL_IF_EMPTY && length == 0) {
        return NULL;
    }
    uint8_t *at = regions[region] + (way == FLUSH_AT_START ? 0 : REGION - length);
    memcpy(at, from, length);
    return at;
}

lent lend(const question *q, lending way)
{
    lent at;
    at.progress = place(PROGRESS, q->progress, sizeof q->progress, way);
    at.table = place(TABLE, q->table.at, q->table.length, way);
    at.input = place(INPUT, q->input.at, q->input.length, way);
    at.rebuilt = place(REBUILT, q->rebuilt.at, q->rebuilt.length, way);
    at.step_parities = place(STEP_PARITIES, q->step_parities.at, q->step_parities.length, way);
    at.step_sources = place(STEP_SOURCES, q->step_sources.at, q->step_sources.length, way);
    at.output = place(OUTPUT, q->output.at, q->output.length, way);
    return at;
}

void lend_lists(lent *at, const uint8_t *parities, const uint8_t *sources, size_t length,
                lending way)
{
    at->step_parities = place(STEP_PARITIES, parities, length, way);
    at->step_sources = place(STEP_SOURCES, sources, length, way);
}

void lend_log(lent *at, const uint8_t *packets, size_t packets_length, const uint8_t *output,
              size_t output_length, lending way)
{
    at->input = place(INPUT, packets, packets_length, way);
    at->output = place(OUTPUT, output, output_length, way);
}

static bool kept(const uint8_t *at, const bytes *old)
{
    return old->length == 0 || memcmp(at, old->at, old->length) == 0;
}

bool inputs_kept(const question *q, const lent *at)
{
    return memcmp(at->progress, q->progress, sizeof q->progress) == 0 &&
           kept(at->table, &q->table) && kept(at->input, &q->input) &&
           kept(at->rebuilt, &q->rebuilt) && kept(at->step_parities, &q->step_parities) &&
           kept(at->step_sources, &q->step_sources);
}
