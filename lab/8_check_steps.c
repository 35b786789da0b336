/* Lesson 8: write the steps of a decoding down, and have the list checked.
 *
 *   8_check_steps                            five lists, and what is said of each
 *   8_check_steps K M L MARKS FILE           the list in a file, with the house table
 *   8_check_steps K M L MARKS FILE FAMILY    with the table of this family, as in lesson 1
 *
 * A file has one step to a line, `parity source`: this parity uncovers the next bit of this source.
 * Where two pairs are bare either may be taken, so several lists may be right. wh_check_steps takes
 * every list in which each pair is bare when its turn comes and all missing sources are finished at
 * the end. Of any other it tells the first step that is wrong, or that the list ends early.
 *
 * The status is 0 for a right list, 1 for a wrong one, 2 where no list was looked at. */
#include "show.h"

#include <ctype.h>
#include <string.h>

static const char usage[] =
    "usage: 8_check_steps [K M L MARKS FILE [FAMILY]], numbers but for FILE, "
    "which is a name, or - for standard input\n";

/* A step uncovers one bit. So no more steps can be right than all sources have bits, and in a
 * longer list the next one is wrong at the latest: what stands behind it need not be read. */
enum { STEPS_KEPT = WH_MAX_K * 8 * WH_MAX_LENGTH + 1 };

/* The longest line, its comment not counted: a macro, so that sscanf has it too. */
#define LINE_MOST 80
#define WORD "%" WH_TEXT(LINE_MOST) "s"

/* How the log was coded, and which cards are at hand. */
typedef struct {
    uint64_t k, m, l, marks;
    uint8_t table[WH_MAX_M * WH_MAX_K];
    size_t table_len;
} cards;

typedef struct {
    uint8_t parities[STEPS_KEPT], sources[STEPS_KEPT];
    uint64_t lines[STEPS_KEPT]; /* where each step stands in its file; 0 if it is from none */
    size_t length;
} list;

static void make_table(cards *c, uint64_t family)
{
    c->table_len = c->k <= WH_MAX_K && c->m <= WH_MAX_M ? (size_t)(c->k * c->m) : 0;
    uint64_t number = wh_family_table(c->k, c->m, family, c->table, c->table_len);
    if (number != WH_DONE) {
        fprintf(stderr, "8_check_steps: no table, %" PRIu64 ": %s\n", number, wh_meaning(number));
        exit(2);
    }
}

/* There is room for it. */
static void add_step(list *steps, uint64_t parity, uint64_t source, uint64_t line)
{
    steps->parities[steps->length] = (uint8_t)parity;
    steps->sources[steps->length] = (uint8_t)source;
    steps->lines[steps->length] = line;
    steps->length++;
}

/* ---- Why a list is refused: the library decides, this only shows it ---- */

static int at_hand(const cards *c, uint64_t packet)
{
    return c->marks >> (packet - 1) & 1;
}

static uint64_t source_bits(const cards *c)
{
    return 8 * c->l;
}

/* How many bits of source b the first steps uncover, as many as count says. */
static uint64_t uncovered(const list *steps, uint64_t count, uint64_t b)
{
    uint64_t bits = 0;
    for (uint64_t i = 0; i < count; i++) {
        bits += steps->sources[i] == b;
    }
    return bits;
}

/* Whether source b is lost, and not all of it uncovered by the first steps. */
static int unfinished(const cards *c, const list *steps, uint64_t count, uint64_t b)
{
    return !at_hand(c, b) && uncovered(steps, count, b) < source_bits(c);
}

/* The row of parity a, and where in it the next bits of all unfinished sources then stand. */
static void say_next_bits(const cards *c, const list *steps, uint64_t count, uint64_t a)
{
    const uint8_t *shifts = c->table + (a - 1) * c->k;
    const char *before = ":";
    printf("  next bits in parity %" PRIu64 ", shifts", a);
    for (uint64_t b = 1; b <= c->k; b++) {
        printf(" %d", shifts[b - 1]);
    }
    for (uint64_t b = 1; b <= c->k; b++) {
        if (unfinished(c, steps, count, b)) {
            printf("%s source %" PRIu64 " at place %" PRIu64, before, b,
                   shifts[b - 1] + uncovered(steps, count, b));
            before = ",";
        }
    }
    printf("; source %d is not below all others\n", steps->sources[count]);
}

/* Why the step behind the first ones is not bare. */
static void say_why(const cards *c, const list *steps, uint64_t count)
{
    uint64_t a = steps->parities[count], b = steps->sources[count];
    if (a < 1 || a > c->m) {
        printf("  there is no parity %" PRIu64 ": parities are 1 to %" PRIu64
               ", and parity 1 is packet %" PRIu64 "\n",
               a, c->m, c->k + 1);
    } else if (b < 1 || b > c->k) {
        printf("  there is no source %" PRIu64 ": sources are 1 to %" PRIu64 "\n", b, c->k);
    } else if (!at_hand(c, c->k + a)) {
        printf("  parity %" PRIu64 ", packet %" PRIu64 ", is not at hand\n", a, c->k + a);
    } else if (at_hand(c, b)) {
        printf("  source %" PRIu64 " is at hand, nothing of it is covered\n", b);
    } else if (!unfinished(c, steps, count, b)) {
        printf("  source %" PRIu64 " is finished\n", b);
    } else {
        say_next_bits(c, steps, count, a);
    }
}

/* What a list that ends early leaves covered. */
static void say_what_is_left(const cards *c, const list *steps)
{
    for (uint64_t b = 1; b <= c->k; b++) {
        if (unfinished(c, steps, steps->length, b)) {
            printf("  source %" PRIu64 ": %" PRIu64 " of %" PRIu64 " bits are uncovered\n", b,
                   uncovered(steps, steps->length, b), source_bits(c));
        }
    }
}

/* ---- The verdict ---- */

static void say_line(const list *steps, uint64_t place)
{
    uint64_t line = steps->lines[place - 1];
    if (line != 0) {
        printf("  line %" PRIu64 ": %d %d\n", line, steps->parities[place - 1],
               steps->sources[place - 1]);
    }
}

/* Has a list checked, says what came back, and gives the number. */
static uint64_t check(const cards *c, const list *steps)
{
    wh_checked checked =
        wh_check_steps(c->k, c->m, c->l, c->table, c->table_len, c->marks, steps->parities,
                       steps->length, steps->sources, steps->length);
    uint64_t number = checked.number, place = checked.place;
    const char *meaning = wh_meaning(number);
    if (number == WH_DONE && steps->length == 0) {
        printf("accepted: nothing is missing\n");
    } else if (number == WH_DONE) {
        printf("accepted: %zu steps uncover all that is missing\n", steps->length);
    } else if (number == WH_STEP_NOT_BARE) {
        printf("refused, %" PRIu64 " at step %" PRIu64 ": %s\n", number, place, meaning);
        say_line(steps, place);
        say_why(c, steps, place - 1);
    } else if (number == WH_STEPS_EARLY) {
        printf("refused, %" PRIu64 " after step %" PRIu64 ": %s\n", number, place, meaning);
        say_what_is_left(c, steps);
    } else {
        printf("refused, %" PRIu64 ": %s\n", number, meaning);
    }
    return number;
}

/* ---- A list in a file ---- */

static void fail(const char *what, const char *name)
{
    fprintf(stderr, "8_check_steps: %s %s: %s\n", what, name, strerror(errno));
    exit(2);
}

static void refuse_line(uint64_t line, const char *what, const char *text)
{
    fprintf(stderr, "8_check_steps: line %" PRIu64 " %s: %s\n", line, what, text);
    exit(2);
}

/* Reads the next line as far as a #, and says whether there was one. A blank of any kind, as the CR
 * in a file from Windows, becomes a space, and what cannot be shown a ?. Of a line that is longer
 * than LINE_MOST one character more than that is kept. */
static int read_line(FILE *file, char text[LINE_MOST + 2])
{
    size_t length = 0;
    int comment = 0, byte = getc(file), there = byte != EOF;
    while (byte != EOF && byte != '\n') {
        comment = comment || byte == '#';
        if (!comment && length <= LINE_MOST) {
            text[length++] = (char)(isspace(byte) ? ' ' : isprint(byte) ? byte : '?');
        }
        byte = getc(file);
    }
    text[length] = '\0';
    return there;
}

/* Adds the step that a line says. An empty one, or one with nothing but a comment, says none. */
static void take_line(list *steps, uint64_t line, const char *text)
{
    char word[3][LINE_MOST + 1];
    uint64_t parity = 0, source = 0;
    if (strlen(text) > LINE_MOST) {
        refuse_line(line, "is too long for two numbers", text);
    }
    int words = sscanf(text, WORD WORD WORD, word[0], word[1], word[2]);
    if (words < 1) {
        return;
    }
    if (words != 2 || !read_number(word[0], UINT8_MAX, &parity) ||
        !read_number(word[1], UINT8_MAX, &source)) {
        refuse_line(line, "is not two numbers, each 0 to 255", text);
    }
    add_step(steps, parity, source, line);
}

static void read_list(const char *name, list *steps)
{
    char text[LINE_MOST + 2];
    FILE *file = strcmp(name, "-") == 0 ? stdin : fopen(name, "r");
    if (file == NULL) {
        fail("cannot open", name);
    }
    for (uint64_t line = 1; steps->length < STEPS_KEPT && read_line(file, text); line++) {
        take_line(steps, line, text);
    }
    if (ferror(file)) {
        fail("cannot read", name);
    }
    fclose(file);
}

/* ---- The lesson's own lists ---- */

static void print_row(const char *name, const uint8_t *numbers, size_t length)
{
    printf("  %s ", name);
    for (size_t i = 0; i < length; i++) {
        printf(" %d", numbers[i]);
    }
    printf("\n");
}

static void show(const cards *c, const char *what, const list *steps)
{
    printf("\n%s\n", what);
    print_row("parity", steps->parities, steps->length);
    print_row("source", steps->sources, steps->length);
    printf("  ");
    check(c, steps);
}

static wh_stepped next_step(const cards *c, const uint64_t progress[WH_MAX_K])
{
    wh_stepped step = wh_next_step(c->k, c->m, c->l, c->table, c->table_len, c->marks, progress);
    must(step.number, "wh_next_step");
    return step;
}

static list order_of_library(const cards *c)
{
    const uint64_t nothing[WH_MAX_K] = {0};
    list steps = {.length = 0};
    wh_stepped step = next_step(c, nothing);
    while (step.parity != 0) {
        add_step(&steps, step.parity, step.source, 0);
        step = next_step(c, step.progress);
    }
    return steps;
}

/* The list of which one text has the parities, a digit each, and the other the sources. */
static list written(const char *parities, const char *sources)
{
    list steps = {.length = 0};
    for (size_t i = 0; parities[i] != '\0'; i++) {
        add_step(&steps, (uint64_t)(parities[i] - '0'), (uint64_t)(sources[i] - '0'), 0);
    }
    return steps;
}

/* Two lists of the same length. */
static void say_differences(const list *one, const list *other)
{
    printf("  unlike wh_next_step at steps");
    for (size_t i = 0; i < one->length; i++) {
        if (one->parities[i] != other->parities[i] || one->sources[i] != other->sources[i]) {
            printf(" %zu", i + 1);
        }
    }
    printf(", where both parities lay the same bit bare\n");
}

static void show_lists(void)
{
    cards c = {.k = 2, .m = 2, .l = 1, .marks = 12};
    make_table(&c, WH_HOUSE);
    printf("Two sources of one byte are lost, two parities are at hand, shifts 0 1 and 0 2.\n");

    list own = order_of_library(&c);
    list other = written("2212121212121222", "1121212121212122");
    list tie = written("11", "12");
    list early = other, longer = other;
    early.length--;
    add_step(&longer, 2, 2, 0);

    show(&c, "the order of wh_next_step: the lowest parity that lays a bit bare", &own);
    show(&c, "another order", &other);
    say_differences(&own, &other);
    show(&c, "a tie", &tie);
    show(&c, "the last step left out", &early);
    show(&c, "one step too many", &longer);
}

/* ---- The words around it ---- */

/* Says whether the words are K M L MARKS FILE, and perhaps FAMILY. */
static int read_words(int words, char **word, cards *c, uint64_t *family)
{
    return (words == 5 || words == 6) && read_number(word[0], UINT64_MAX, &c->k) &&
           read_number(word[1], UINT64_MAX, &c->m) && read_number(word[2], UINT64_MAX, &c->l) &&
           read_number(word[3], UINT64_MAX, &c->marks) &&
           (words == 5 || read_number(word[5], UINT64_MAX, family));
}

int main(int words, char **word)
{
    cards c = {.k = 0};
    list steps = {.length = 0};
    uint64_t family = WH_HOUSE;
    if (words == 1) {
        show_lists();
        return 0;
    }
    if (!read_words(words - 1, word + 1, &c, &family)) {
        fputs(usage, stderr);
        return 2;
    }
    make_table(&c, family);
    read_list(word[5], &steps);
    switch (check(&c, &steps)) {
    case WH_DONE:
        return 0;
    case WH_STEP_NOT_BARE:
    case WH_STEPS_EARLY:
        return 1;
    default: /* no such cards */
        return 2;
    }
}
