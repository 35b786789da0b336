#include "example.h"

#include "check.h"
#include "draw_question.h"

#include <stdlib.h>
#include <string.h>

void set_hex(bytes *to, const char *hex)
{
    char *rest;
    to->length = 0;
    for (long byte = strtol(hex, &rest, 16); rest != hex; byte = strtol(hex, &rest, 16)) {
        to->at[to->length++] = (uint8_t)byte;
        hex = rest;
    }
}

question example(void)
{
    return house_question(2, 2, 1);
}

question with_table(uint64_t k, uint64_t m, const char *table)
{
    question q = house_question(k, m, 1);
    set_hex(&q.table, table);
    return q;
}

question with_input(question q, const char *input)
{
    set_hex(&q.input, input);
    return q;
}

question with_marks(question q, uint64_t marks, const char *packets)
{
    q.marks = marks;
    return with_input(q, packets);
}

question wanting(question q, uint64_t packet)
{
    q.packet = packet;
    return q;
}

static void hold(const call *asked, const question *q, answer right, const bytes *right_output)
{
    uint8_t output[BYTES_MOST];
    memcpy(output, q->output.at, sizeof output);
    answer model = asked->model(q, output);
    if (memcmp(&model, &right, sizeof model) != 0 ||
        memcmp(output, right_output->at, q->output.length) != 0) {
        fail("the model answers otherwise");
    }
    expect(asked, q, &right, right_output->at);
}

void gives(const call *asked, question q, answer right, const char *output)
{
    bytes right_output;
    set_hex(&right_output, output);
    q.output.length = right_output.length;
    memset(q.output.at, 0xAA, BYTES_MOST);
    hold(asked, &q, right, &right_output);
}

void refuses(const call *asked, question q, answer right, size_t output_length)
{
    q.output.length = output_length;
    memset(q.output.at, 0xAA, BYTES_MOST);
    hold(asked, &q, right, &q.output);
}
