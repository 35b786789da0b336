/* Named tests: each prints `ok NAME` or `FAIL NAME: what`. */
#ifndef CHECK_H
#define CHECK_H

#include <stddef.h>

typedef struct {
    const char *name;
    void (*run)(void);
} named_test;

/* Ends the running test as failed, and says what was wrong. */
void fail(const char *format, ...);

/* Runs all of them, one after another, and gives the exit status. A test that touches memory
 * outside what was lent, or that does not end, has failed, and the next one runs. */
int run_named_tests(const named_test *tests, size_t count);

#endif
