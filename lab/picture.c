/* Draws docs/zigzag.svg: in which order a decoding uncovers the bits of two lost sources. The
 * order is wh_next_step's, asked again and again; nothing of the path is known beforehand. */
#include "show.h"

#include <string.h>

enum { K = 2, M = 2, L = 1, BITS = 8 * L, MARKS = 12, PLACES = BITS + 2 };
enum { CELL = 44, LEFT = 130, TOP = 70, BETWEEN = 40, NOTES = 66 };
enum { WIDTH = LEFT + PLACES * CELL + 20, HEIGHT = TOP + M * K * CELL + BETWEEN + NOTES };

static const uint8_t recorded[K * L] = {'H', 'i'};
static const char *const colours[K] = {"#2f6db3", "#c8741a"};

/* The order of the steps: ordered[a - 1][b - 1][p] is the step that reads bit p of source b in
 * parity a, or 0. */
typedef struct {
    uint8_t table[M * K];
    uint64_t count;
    uint64_t ordered[M][K][BITS];
    char path[4096]; /* the places of the steps, one after another, as SVG points */
} drawing;

static int left_of(const drawing *d, uint64_t a, uint64_t b, uint64_t p)
{
    return LEFT + (int)(d->table[(a - 1) * K + b - 1] + p) * CELL;
}

static int top_of(uint64_t a, uint64_t b)
{
    return TOP + (int)((a - 1) * K + b - 1) * CELL + (int)(a - 1) * BETWEEN;
}

static void note_step(drawing *d, const wh_stepped *step, uint64_t p)
{
    size_t used = strlen(d->path);
    d->count++;
    d->ordered[step->parity - 1][step->source - 1][p] = d->count;
    snprintf(d->path + used, sizeof d->path - used, " %d,%d",
             left_of(d, step->parity, step->source, p) + CELL / 2,
             top_of(step->parity, step->source) + CELL / 2);
}

static void take_all_steps(drawing *d)
{
    uint64_t progress[WH_MAX_K] = {0};
    for (;;) {
        wh_stepped step = wh_next_step(K, M, L, d->table, sizeof d->table, MARKS, progress);
        must(step.number, "wh_next_step");
        if (step.parity == 0) {
            return;
        }
        note_step(d, &step, progress[step.source - 1]);
        memcpy(progress, step.progress, sizeof progress);
    }
}

static void draw_text(int x, int y, int size, const char *words)
{
    printf("<text x=\"%d\" y=\"%d\" font-size=\"%d\">%s</text>\n", x, y, size, words);
}

/* Filled where a step reads the bit here; pale where it was read in the other parity. */
static void draw_cell(const drawing *d, uint64_t a, uint64_t b, uint64_t p)
{
    uint64_t step = d->ordered[a - 1][b - 1][p];
    int x = left_of(d, a, b, p), y = top_of(a, b);
    printf("<rect x=\"%d\" y=\"%d\" width=\"%d\" height=\"%d\" fill=\"%s\" fill-opacity=\"%s\" "
           "stroke=\"%s\"/>\n",
           x, y, CELL, CELL, colours[b - 1], step != 0 ? "0.55" : "0.08", colours[b - 1]);
    printf("<text x=\"%d\" y=\"%d\" font-size=\"17\">%d</text>\n", x + CELL - 13, y + CELL - 6,
           bit_of(recorded + (b - 1) * L, p));
    if (step != 0) {
        printf("<text x=\"%d\" y=\"%d\" font-size=\"12\" font-weight=\"bold\">%" PRIu64 "</text>\n",
               x + 4, y + 14, step);
    }
}

static void draw_row(const drawing *d, uint64_t a, uint64_t b)
{
    char words[40];
    snprintf(words, sizeof words, "source %" PRIu64 ", up %d", b, d->table[(a - 1) * K + b - 1]);
    draw_text(20, top_of(a, b) + CELL / 2 + 5, 14, words);
    for (uint64_t p = 0; p < BITS; p++) {
        draw_cell(d, a, b, p);
    }
}

static void draw_parity(const drawing *d, uint64_t a)
{
    char words[40];
    snprintf(words, sizeof words, "Parity %" PRIu64, a);
    draw_text(20, top_of(a, 1) - 8, 16, words);
    for (uint64_t b = 1; b <= K; b++) {
        draw_row(d, a, b);
    }
}

static void draw_places(void)
{
    for (int place = 0; place < PLACES; place++) {
        char words[12];
        snprintf(words, sizeof words, "%d", place);
        draw_text(LEFT + place * CELL + CELL / 2 - 4, TOP - 8, 12, words);
    }
}

int main(void)
{
    drawing d = {.count = 0};
    must(wh_family_table(K, M, WH_HOUSE, d.table, sizeof d.table), "wh_family_table");
    take_all_steps(&d);
    printf("<svg xmlns=\"http://www.w3.org/2000/svg\" viewBox=\"0 0 %d %d\" width=\"%d\" "
           "height=\"%d\" font-family=\"sans-serif\">\n"
           "<title>A zigzag decoding in %" PRIu64 " steps</title>\n"
           "<rect width=\"100%%\" height=\"100%%\" fill=\"white\"/>\n",
           WIDTH, HEIGHT, WIDTH, HEIGHT, d.count);
    draw_text(20, 26, 18, "Two lost sources, two parities: the order of the steps");
    draw_places();
    for (uint64_t a = 1; a <= M; a++) {
        draw_parity(&d, a);
    }
    printf("<polyline points=\"%s\" fill=\"none\" stroke=\"#333333\" stroke-width=\"2\" "
           "stroke-linejoin=\"round\" stroke-opacity=\"0.7\"/>\n",
           d.path + 1);
    draw_text(20, HEIGHT - 38, 13, "Dark, with a small number: the step that reads the bit here.");
    draw_text(20, HEIGHT - 18, 13, "Pale: read in the other parity, and taken out of this one.");
    printf("</svg>\n");
    return 0;
}
