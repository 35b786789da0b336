/* The class sheet of the line on standard input, in plain C and straight from docs/RULES.md: what
 * the program class_sheet should print. Counts come from the model's walk. */
#include "../model.h"

#include <stdio.h>
#include <string.h>

enum { INPUT_MOST = 4096 };

/* Reads one number of one to three digits without a leading zero; false if there is none. */
static bool read_number(const char **at, const char *end, uint64_t *number)
{
    const char *first = *at;
    *number = 0;
    while (*at < end && **at >= '0' && **at <= '9') {
        *number = *number * 10 + (uint64_t)(**at - '0');
        (*at)++;
    }
    long digits = *at - first;
    return digits >= 1 && digits <= 3 && (*first != '0' || digits == 1);
}

static bool read_byte(const char **at, const char *end, char wanted)
{
    return *at < end && *(*at)++ == wanted;
}

static bool read_line(const char *at, const char *end, question *q)
{
    return read_number(&at, end, &q->k) && read_byte(&at, end, ' ') &&
           read_number(&at, end, &q->m) && read_byte(&at, end, ' ') &&
           read_number(&at, end, &q->l) && read_byte(&at, end, '\n') && at == end;
}

static uint64_t sheet_number(const char *input, size_t length, question *q)
{
    if (!read_line(input, input + length, q)) {
        return WH_LINE;
    }
    if (bad_size(q)) {
        return WH_SIZE;
    }
    return bad_length(q) ? WH_LENGTH : WH_DONE;
}

static void fill_house_table(question *q)
{
    q->family = WH_HOUSE;
    q->table.length = (size_t)(q->k * q->m);
    write_family_table(q, q->table.at);
}

static void print_row(question *q, const uint64_t *ids)
{
    q->marks = 0;
    for (uint64_t i = 0; i < q->k; i++) {
        q->marks |= (uint64_t)1 << (ids[i] - 1);
        printf(i == 0 ? "%d" : ",%d", (int)ids[i]);
    }
    printf(" %d\n", (int)walk_lowest_first(q).count);
}

/* Prints the choices that begin with the `chosen` numbers of ids, by trying each next number. */
static void print_choices(question *q, uint64_t *ids, uint64_t chosen)
{
    if (chosen == q->k) {
        print_row(q, ids);
        return;
    }
    for (uint64_t id = chosen == 0 ? 1 : ids[chosen - 1] + 1; id <= q->k + q->m; id++) {
        ids[chosen] = id;
        print_choices(q, ids, chosen + 1);
    }
}

int main(void)
{
    char input[INPUT_MOST];
    size_t length = fread(input, 1, sizeof input, stdin);
    static question q;
    uint64_t ids[WH_MAX_K];
    uint64_t number = sheet_number(input, length, &q);
    if (number != WH_DONE) {
        printf("refused %d\n", (int)number);
        return 0;
    }
    fill_house_table(&q);
    printf("ids steps\n");
    print_choices(&q, ids, 0);
    return 0;
}
