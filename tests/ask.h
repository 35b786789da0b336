/* Asking the library a question, with guarded buffers, and holding its answer to another one. */
#ifndef ASK_H
#define ASK_H

#include "lend.h"
#include "model.h"

typedef answer library_call(const question *q, const lent *at);
typedef void question_maker(question *q);

typedef struct {
    const char *name;
    library_call *library;
    model_call *model;
    question_maker *draw; /* makes a question that the shape's checks do not refuse */
} call;

/* Fails unless the library gives this answer and leaves these bytes in the output, its inputs
 * unchanged, whichever way the buffers are lent. */
void expect(const call *asked, const question *q, const answer *right, const uint8_t *right_output);

/* The same with the model's answer, which is also given back. */
answer compare(const call *asked, const question *q);

/* Compares at this question with outputs that are shorter than so many bytes, equal and longer. */
void compare_into_outputs(const call *asked, question *q, size_t around);

/* Compares at drawn questions of which a part is spoiled in a few places. */
void compare_spoiled(const call *asked, uint64_t questions);

/* Compares at drawn questions in which one number or length after another takes each of a row of
 * telling values, up to 2^64 - 1. */
void compare_any_numbers(const call *asked, uint64_t questions);

/* Compares at good questions with each choice of the buffers NULL, their lengths beside them all
 * the same. The answer is that for buffers of no bytes. */
void compare_null(const call *asked, uint64_t questions);

/* Compares at good questions with one length after another said to be longer than the buffer, by
 * what would be lost if a length were cut to 32 bits. */
void compare_too_long(const call *asked, uint64_t questions);

/* Fails unless the number is this one. */
void expect_number(uint64_t number, uint64_t right);

/* Fails unless all these slots are 0. */
void expect_zeros(const uint64_t *slots, size_t count);

#endif
