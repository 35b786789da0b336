#include "question.h"

bytes *lent_buffer(question *q, size_t buffer)
{
    bytes *buffers[LENT_BUFFERS] = {&q->table,         &q->input,        &q->rebuilt,
                                    &q->step_parities, &q->step_sources, &q->output};
    return buffers[buffer];
}

answer numbered(uint64_t number, uint64_t result)
{
    answer given = {0};
    given.number = number;
    given.results[0] = result;
    return given;
}

answer refused(uint64_t number)
{
    return numbered(number, 0);
}

answer done(void)
{
    return numbered(WH_DONE, 0);
}

answer done_with(uint64_t result)
{
    return numbered(WH_DONE, result);
}
