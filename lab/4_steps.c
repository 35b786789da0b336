/* Lesson 4: step through a decoding.
 *
 *   4_steps            with the house table, shifts 0 1 and 0 2
 *   4_steps 0 7 0 7    with these shifts: parity 1's two, then parity 2's
 *   4_steps list       the steps alone, one `parity source` to a line, as lesson 8 reads them;
 *                      shifts may follow, but lesson 8 knows the tables of the families only
 *
 * MARKS says which two cards are at hand. With 12 these are the two parities, and both sources are
 * lost. wh_next_step says which pair is bare; the program reads that bit in the parity and draws
 * where it stands. */
#include "show.h"

#include <string.h>

enum { K = 2, M = 2, L = 1, BITS = 8 * L, MARKS = 12 };

static const char usage[] =
    "usage: 4_steps [list] [SHIFT SHIFT SHIFT SHIFT], parity 1's two, then parity 2's, "
    "each 0 to " WH_TEXT(WH_MAX_SHIFT) "\n";

typedef struct {
    uint8_t table[M * K];
    uint8_t parities[M * WH_LONGEST];
    size_t starts[M];            /* where each parity stands among them */
    uint64_t places[M];          /* bits of each that can be ones, by its own row */
    uint64_t progress[WH_MAX_K]; /* bits uncovered of each missing source */
    uint8_t sources[K * L];      /* those bits, and the sources at hand */
} decoding;

static int at_hand(uint64_t packet)
{
    return MARKS >> (packet - 1) & 1;
}

static uint64_t entry(const decoding *d, uint64_t a, uint64_t b)
{
    return d->table[(a - 1) * K + b - 1];
}

/* How many bits of source b are known, lowest first: all of them when its card is at hand. */
static uint64_t known(const decoding *d, uint64_t b)
{
    return at_hand(b) ? BITS : d->progress[b - 1];
}

static int bit_on_card(const decoding *d, uint64_t a, uint64_t place)
{
    return bit_of(d->parities + d->starts[a - 1], place);
}

/* The bit at a place of parity a once all known bits are taken out, each at its shifted place. */
static int read_bit(const decoding *d, uint64_t a, uint64_t place)
{
    int bit = bit_on_card(d, a, place);
    for (uint64_t b = 1; b <= K; b++) {
        uint64_t shift = entry(d, a, b);
        if (place >= shift && place - shift < known(d, b)) {
            bit ^= bit_of(d->sources + (b - 1) * L, place - shift);
        }
    }
    return bit;
}

static char source_shown(const decoding *d, uint64_t a, uint64_t b, uint64_t place)
{
    uint64_t p = place - entry(d, a, b);
    if (place < entry(d, a, b) || p >= BITS) {
        return ' ';
    }
    if (p < known(d, b)) {
        return bit_of(d->sources + (b - 1) * L, p) ? '1' : '0';
    }
    return p == known(d, b) ? '?' : '.';
}

/* ---- The picture: a line for the places, one for what stands on the cards, one for each source,
 *      and in each line the parities at hand, side by side ---- */

static char line[1000];
static size_t used;

static void put(int shown)
{
    if (used < sizeof line) {
        line[used++] = (char)shown;
    }
}

static void end_line(void)
{
    while (used > 0 && line[used - 1] == ' ') {
        used--;
    }
    printf("%.*s\n", (int)used, line);
    used = 0;
}

static void begin_line(const char *name)
{
    for (size_t i = 0; i < 10; i++) {
        put(i < strlen(name) ? name[i] : ' ');
    }
}

/* The columns of a parity in the picture: its places and a gap, or none if it is lost. */
static uint64_t columns(const decoding *d, uint64_t a)
{
    return at_hand(K + a) ? d->places[a - 1] + 2 : 0;
}

static void draw_places(const decoding *d)
{
    begin_line("place");
    for (uint64_t a = 1; a <= M; a++) {
        for (uint64_t place = 0; place < columns(d, a); place++) {
            put(' ');
            put(place < d->places[a - 1] ? '0' + (int)(place % 10) : ' ');
        }
    }
    end_line();
}

static void draw_cards(const decoding *d)
{
    begin_line("on card");
    for (uint64_t a = 1; a <= M; a++) {
        for (uint64_t place = 0; place < columns(d, a); place++) {
            put(' ');
            put(place < d->places[a - 1] ? '0' + bit_on_card(d, a, place) : ' ');
        }
    }
    end_line();
}

/* Source b as it stands in parity a, the bare bit in brackets. */
static void draw_source(const decoding *d, uint64_t a, uint64_t b, const wh_stepped *step)
{
    uint64_t bare = entry(d, a, b) + known(d, b);
    int marked = step->parity == a && step->source == b;
    for (uint64_t place = 0; place < columns(d, a); place++) {
        put(marked && place == bare ? '[' : marked && place == bare + 1 ? ']' : ' ');
        put(marked && place == bare ? '0' + read_bit(d, a, place) : source_shown(d, a, b, place));
    }
}

static void draw(const decoding *d, const wh_stepped *step)
{
    static const char *const names[K] = {"source 1", "source 2"};
    draw_places(d);
    draw_cards(d);
    for (uint64_t b = 1; b <= K; b++) {
        begin_line(names[b - 1]);
        for (uint64_t a = 1; a <= M; a++) {
            draw_source(d, a, b, step);
        }
        end_line();
    }
    printf("\n");
}

/* ---- The steps ---- */

static wh_stepped next_step(const decoding *d)
{
    wh_stepped step = wh_next_step(K, M, L, d->table, sizeof d->table, MARKS, d->progress);
    must(step.number, "wh_next_step");
    return step;
}

static void take(decoding *d, const wh_stepped *step)
{
    uint64_t b = step->source, p = d->progress[b - 1];
    int bit = read_bit(d, step->parity, entry(d, step->parity, b) + p);
    d->sources[(b - 1) * L + p / 8] |= (uint8_t)(bit << p % 8);
    memcpy(d->progress, step->progress, sizeof d->progress);
}

/* The cards: the parities, and those sources that are not lost. */
static void begin(decoding *d)
{
    static const uint8_t recorded[K * L] = {'H', 'i'};
    size_t length = 0; /* of the parities so far */
    for (uint64_t a = 1; a <= M; a++) {
        wh_measured parity = wh_packet_length(K, M, L, d->table, sizeof d->table, K + a);
        must(parity.number, "wh_packet_length");
        d->starts[a - 1] = length;
        length += (size_t)parity.length;
        for (uint64_t b = 1; b <= K; b++) {
            uint64_t top = BITS + entry(d, a, b);
            d->places[a - 1] = d->places[a - 1] < top ? top : d->places[a - 1];
        }
    }
    must(wh_encode_all(K, M, L, d->table, sizeof d->table, recorded, sizeof recorded, d->parities,
                       length),
         "wh_encode_all");
    for (uint64_t b = 1; b <= K; b++) {
        if (at_hand(b)) {
            memcpy(d->sources + (b - 1) * L, recorded + (b - 1) * L, L);
        }
    }
}

/* All steps, one picture each; then the picture where nothing is bare. */
static void decode(decoding *d)
{
    uint64_t count = 0;
    wh_stepped step = next_step(d);
    while (step.parity != 0) {
        count++;
        printf("step %" PRIu64 ": parity %" PRIu64 " lays source %" PRIu64 " bare\n", count,
               step.parity, step.source);
        draw(d, &step);
        take(d, &step);
        step = next_step(d);
    }
    printf("after %" PRIu64 " steps nothing is bare\n", count);
    draw(d, &step);
}

/* All steps, one to a line and nothing else. No bit is read: which pairs are bare depends on the
 * table and the progress, not on what stands on the cards. */
static void list_steps(decoding *d)
{
    wh_stepped step = next_step(d);
    while (step.parity != 0) {
        printf("%" PRIu64 " %" PRIu64 "\n", step.parity, step.source);
        memcpy(d->progress, step.progress, sizeof d->progress);
        step = next_step(d);
    }
}

/* ---- The words around it ---- */

/* Says whether the words are the shifts of a table, which is then theirs. */
static int read_table(int words, char **word, uint8_t table[M * K])
{
    if (words != M * K) {
        return 0;
    }
    for (int i = 0; i < words; i++) {
        uint64_t shift;
        if (!read_number(word[i], WH_MAX_SHIFT, &shift)) {
            return 0;
        }
        table[i] = (uint8_t)shift;
    }
    return 1;
}

/* Two cards are at hand, so as many parities are there as sources are missing. */
static void say_what_is_lost(void)
{
    if (at_hand(1) && at_hand(2)) {
        printf("Both sources are at hand: nothing is lost that matters.\n");
    } else if (at_hand(1) || at_hand(2)) {
        printf("Source %d, of one byte, is lost. Source %d and parity %d are at hand.\n",
               at_hand(1) ? 2 : 1, at_hand(1) ? 1 : 2, at_hand(K + 1) ? 1 : 2);
    } else {
        printf("Two sources of one byte are lost. "
               "Parity 1 is on the left, parity 2 on the right.\n");
    }
    printf("0 and 1 are known bits, ? is the next one, . a later one, [ ] the bare one.\n\n");
}

int main(int words, char **word)
{
    decoding d = {.table = {0}};
    int list = words > 1 && strcmp(word[1], "list") == 0;
    int first_shift = list ? 2 : 1; /* among the words */
    if (words == first_shift) {
        must(wh_family_table(K, M, WH_HOUSE, d.table, sizeof d.table), "wh_family_table");
    } else if (!read_table(words - first_shift, word + first_shift, d.table)) {
        fputs(usage, stderr);
        return 2;
    }
    wh_walked walked = wh_walk(K, M, L, d.table, sizeof d.table, MARKS);
    must(walked.number, "wh_walk");
    if (list) {
        list_steps(&d);
        return 0;
    }

    begin(&d);
    say_what_is_lost();
    decode(&d);
    if (walked.whole) {
        printf("Every bit is uncovered: \"%.*s\".\n", K * L, (const char *)d.sources);
    } else {
        printf("Stalled: in each parity the next bits of both sources stand at one place.\n");
    }
    return 0;
}
