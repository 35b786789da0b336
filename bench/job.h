/* What is timed: a job is a size, a table, the sources, and the k packets that are at hand; a
 * contestant does it. Packets, sources and parities are counted from 0 here.
 *
 * What a contestant keeps from one call to the next it makes in `begin`, which is not timed. */
#ifndef JOB_H
#define JOB_H

#include "windhawker_limits.h"

#include <stdbool.h>
#include <stddef.h>
#include <stdint.h>

enum { LENGTH = WH_MAX_LENGTH };

typedef struct {
    unsigned k, m;
} shape;

enum { SHAPES = 4 };
extern const shape shapes[SHAPES];

typedef struct {
    unsigned k, m, family;
    uint8_t table[WH_MAX_M * WH_MAX_K]; /* m * k bytes */
    size_t parity_bytes[WH_MAX_M];      /* of each of Windhawker's parities */
    size_t parities_bytes;              /* of all of them */
    uint8_t sources[WH_MAX_K * LENGTH];
    uint64_t marks;             /* of the packets at hand */
    unsigned at_hand[WH_MAX_K]; /* those packets, rising */
    unsigned lost;              /* how many sources are missing: as many parities are at hand */
    unsigned missing[WH_MAX_K]; /* those sources, rising */
} job;

/* The first source is missing, and the first parity at hand. The uneven job is of no family: entry
 * (a, b) is the product of a and b, counted from 0, where the last of each counts one more. Its
 * differences grow, and three sources or more with the last row and column are no even set. */
job make_job(shape size, unsigned family);
job make_uneven_job(shape size);

/* Puts k packets at hand: those of these marks; all sources but the first `lost`, and as many of
 * the first parities; all but the last `lost`, and as many of the last parities; or any, drawn at
 * random, with so many sources missing. */
void put_at_hand(job *j, uint64_t marks);
void lose_first(job *j, unsigned lost);
void lose_last(job *j, unsigned lost);
void lose_drawn(job *j, unsigned lost);

/* The parity at hand in the place of the missing source i of the list. */
unsigned parity_at_hand(const job *j, unsigned i);

/* Whether the shifts of the missing sources in the parities at hand are such that the sources can
 * be solved for at once, and not bit by bit. */
bool has_even_rows(const job *j);
bool has_even_columns(const job *j);

/* Ends the program unless the number is WH_DONE. */
void must(uint64_t number);

typedef struct {
    const char *name;
    void (*begin)(const job *j);
    void (*encode)(const job *j);         /* all parities */
    void (*lose)(const job *j);           /* makes the lost sources unreadable */
    void (*rebuild)(const job *j);        /* the lost sources, from the packets at hand */
    const uint8_t *(*source)(unsigned b); /* after a rebuild */
    const uint8_t *(*parities)(void);     /* NULL where they are another code's */
} contestant;

extern const contestant windhawker, plain, isal, isal_kept, jerasure;

/* The plain contestant's two functions, which are all that a student would write. */
void plain_encode(unsigned k, unsigned m, size_t l, const uint8_t *table, const uint8_t *sources,
                  uint8_t *parities, const size_t *parity_bytes);
int plain_rebuild(unsigned k, unsigned m, size_t l, const uint8_t *table, uint64_t marks,
                  const uint8_t *packets, const size_t *parity_bytes, uint8_t *sources);

#endif
