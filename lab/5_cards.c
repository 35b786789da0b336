/* Lesson 5: a log file onto card files, and back from any k of them. A program that ends badly must
 * not have spoiled what was there: files.h sees to that. */
#define _POSIX_C_SOURCE 200809L /* for stat, lstat and access, which C99 alone does not have */

#include "files.h"

static const char help[] =
    "cards write K M L LOG CARDS_DIR\n"
    "cards read  K M L LENGTH CARDS_DIR LOG\n"
    "\n"
    "write cuts the file LOG into stripes of K sources of L bytes and codes each stripe onto\n"
    "K + M cards: the files card_1, card_2 and so on in the folder CARDS_DIR, which must be\n"
    "there. A card file is the bare packets of that card, stripe after stripe, with no header.\n"
    "The last stripe is filled up with zero bytes, and LENGTH, the bytes of the log, says where\n"
    "the log ends.\n"
    "\n"
    "read looks which card files are there, writes LOG from the first K of them and compares the\n"
    "others with it. A card file that is not as long as LENGTH wants it counts as lost; where no\n"
    "parity that is there has its length, read refuses.\n"
    "\n"
    "K, M, L and LENGTH stand on no card: note them down. read refuses what it can tell is wrong.\n"
    "It cannot tell everything: a LENGTH too large by less than a stripe gives zero bytes behind\n"
    "the log, and with just K cards of other numbers or of two logs a wrong log can come out.\n"
    "\n"
    "K and M are 1 to " WH_TEXT(WH_MAX_K) ", L is 1 to " WH_TEXT(WH_MAX_LENGTH) ".\n";

enum { CARDS_MOST = WH_MAX_K + WH_MAX_M };

typedef struct {
    uint64_t k, m, l;
    uint8_t table[WH_MAX_M * WH_MAX_K];
    size_t table_len;
    size_t stripe; /* bytes of the log in a stripe */
    const char *log, *folder;
} job;

/* ---- The job ---- */

static uint64_t number_in(const char *word)
{
    uint64_t number = 0;
    if (!read_number(word, UINT64_MAX, &number)) {
        refuse("not a number:", word);
    }
    return number;
}

static size_t packet_length(const job *j, uint64_t packet)
{
    wh_measured measured = wh_packet_length(j->k, j->m, j->l, j->table, j->table_len, packet);
    must(measured.number, "cards:");
    return (size_t)measured.length;
}

/* The job for the words K M L, with the house table. */
static job new_job(char **word, const char *log, const char *folder)
{
    job j = {.k = number_in(word[0]), .m = number_in(word[1]), .l = number_in(word[2])};
    j.table_len = j.k <= WH_MAX_K && j.m <= WH_MAX_M ? (size_t)(j.k * j.m) : 0;
    must(wh_family_table(j.k, j.m, WH_HOUSE, j.table, j.table_len), "cards:");
    j.stripe = (size_t)j.k * packet_length(&j, 1);
    j.log = log;
    j.folder = folder;
    if (folder[0] == '\0') {
        refuse("the name of a folder is empty:", "CARDS_DIR");
    }
    return j;
}

static void name_card(char name[NAME_MOST], const job *j, uint64_t packet)
{
    char card[40];
    snprintf(card, sizeof card, "/card_%" PRIu64, packet);
    join(name, j->folder, card);
}

/* The log is none of the cards, and no two cards are one file. */
static void refuse_files_given_twice(const job *j)
{
    char card[NAME_MOST], other[NAME_MOST];
    for (uint64_t packet = 1; packet <= j->k + j->m; packet++) {
        name_card(card, j, packet);
        if (same_file(card, j->log)) {
            refuse("the log is one of the cards:", j->log);
        }
        for (uint64_t before = 1; before < packet; before++) {
            name_card(other, j, before);
            if (same_file(card, other)) {
                refuse("the same file as a card before it:", card);
            }
        }
    }
}

/* A write that was broken off leaves files beside the cards, and perhaps only some cards new. */
static void refuse_half_written(const job *j)
{
    char card[NAME_MOST], beside[NAME_MOST];
    struct stat found;
    for (uint64_t packet = 1; packet <= j->k + j->m; packet++) {
        name_card(card, j, packet);
        join(beside, card, ".new");
        if (lstat(beside, &found) == 0) {
            refuse("a write was broken off, and the cards may be of two logs:", beside);
        }
    }
}

/* ---- Write ---- */

/* The next stripe of the log, filled up with zeros. Gives how many bytes the log had for it. */
static size_t read_stripe(const job *j, FILE *log, uint8_t *sources)
{
    size_t got = fread(sources, 1, j->stripe, log);
    if (ferror(log)) {
        fail("cannot read", j->log);
    }
    memset(sources + got, 0, j->stripe - got);
    return got;
}

static void write_stripe(const job *j, const uint8_t *sources)
{
    uint8_t bytes[WH_LONGEST];
    for (uint64_t packet = 1; packet <= j->k + j->m; packet++) {
        size_t length = packet_length(j, packet);
        must(wh_packet(j->k, j->m, j->l, j->table, j->table_len, source_marks(j->k), sources,
                       j->stripe, packet, bytes, length),
             "cards:");
        put(&outputs[packet - 1], bytes, length);
    }
}

/* Gives the log's length. */
static uint64_t write_stripes(const job *j, FILE *log)
{
    uint8_t sources[WH_MAX_K * WH_MAX_LENGTH];
    uint64_t written = 0;
    size_t got = read_stripe(j, log, sources);
    while (got > 0) {
        write_stripe(j, sources);
        written += got;
        got = read_stripe(j, log, sources);
    }
    return written;
}

static void write_cards(const job *j)
{
    char name[NAME_MOST];
    FILE *log = fopen(j->log, "rb");
    if (log == NULL) {
        fail("cannot open", j->log);
    }
    refuse_files_given_twice(j);
    for (uint64_t packet = 1; packet <= j->k + j->m; packet++) {
        name_card(name, j, packet);
        begin_output(name);
    }
    uint64_t length = write_stripes(j, log);
    fclose(log);
    finish_outputs();
    printf("%" PRIu64 " bytes on %" PRIu64 " cards\n", length, j->k + j->m);
}

/* ---- Read ---- */

static FILE *count_as_lost(const char *name, const char *why)
{
    fprintf(stderr, "cards: %s counts as lost: %s\n", name, why);
    return NULL;
}

/* The card's file if it has a packet for each stripe; NULL when the card counts as lost. Files of
 * another length are counted. */
static FILE *open_card(const job *j, uint64_t packet, uint64_t stripes, unsigned *wrong_lengths)
{
    struct stat found;
    char name[NAME_MOST];
    name_card(name, j, packet);
    if (stat(name, &found) != 0) {
        return errno == ENOENT ? NULL : count_as_lost(name, strerror(errno));
    }
    if (!S_ISREG(found.st_mode)) {
        return count_as_lost(name, "not a plain file");
    }
    uint64_t length = (uint64_t)found.st_size, each = packet_length(j, packet);
    if (length / each != stripes || length % each != 0) {
        fprintf(stderr,
                "cards: %s has a wrong length and counts as lost: %" PRIu64 " bytes, not %" PRIu64
                " times %" PRIu64 "\n",
                name, length, stripes, each);
        (*wrong_lengths)++;
        return NULL;
    }
    FILE *card = fopen(name, "rb");
    return card != NULL ? card : count_as_lost(name, strerror(errno));
}

/* More than K + M cards are a sign of a wrong K or M, or of an older write of more cards. */
static void refuse_more_cards(const job *j)
{
    char card[NAME_MOST];
    struct stat found;
    for (uint64_t packet = j->k + j->m + 1; packet <= CARDS_MOST; packet++) {
        name_card(card, j, packet);
        if (stat(card, &found) == 0) {
            refuse("K or M is wrong, or this is of another log and to be removed:", card);
        }
    }
}

/* Opens all cards that are there, and gives the marks of the first k. The lengths of sources do not
 * tell L from half of L, those of parities do: where parities are, one must have its length. */
static uint64_t open_cards(const job *j, uint64_t stripes, FILE **cards)
{
    uint64_t marks = 0, found = 0, parities = 0;
    unsigned wrong_sources = 0, wrong_parities = 0;
    for (uint64_t packet = 1; packet <= j->k + j->m; packet++) {
        cards[packet - 1] =
            open_card(j, packet, stripes, packet <= j->k ? &wrong_sources : &wrong_parities);
        if (cards[packet - 1] != NULL) {
            marks |= (uint64_t)(found < j->k) << (packet - 1);
            found++;
            parities += packet > j->k;
        }
    }
    if (wrong_sources + wrong_parities > 0) {
        fputs("cards: perhaps K, M, L or LENGTH is not what these were written with\n", stderr);
    }
    if (found < j->k) {
        refuse("fewer than K cards in", j->folder);
    }
    if (parities == 0 && wrong_parities > 0) {
        refuse("no parity has its length (remove them if they are broken) in", j->folder);
    }
    return marks;
}

static void read_packet(const job *j, uint64_t packet, FILE *card, uint8_t *bytes, size_t length)
{
    char name[NAME_MOST];
    if (fread(bytes, 1, length, card) == length) {
        return;
    }
    name_card(name, j, packet);
    if (ferror(card)) {
        fail("cannot read", name);
    }
    refuse("shorter than it was:", name);
}

/* The next stripe's packets, one after another. Gives their bytes. */
static size_t read_packets(const job *j, uint64_t marks, FILE *const *cards, uint8_t *packets)
{
    size_t used = 0;
    for (uint64_t packet = 1; packet <= j->k + j->m; packet++) {
        if (marks >> (packet - 1) & 1) {
            size_t length = packet_length(j, packet);
            read_packet(j, packet, cards[packet - 1], packets + used, length);
            used += length;
        }
    }
    return used;
}

/* Rebuilds the next so many stripes in one call. Where one of them is bad, those before it are good
 * and their sources are written. */
static wh_log_rebuilt rebuild_next(const job *j, uint64_t marks, FILE *const *cards,
                                   uint64_t stripes, uint8_t *sources)
{
    uint8_t packets[WH_MAX_STRIPES * WH_MAX_K * WH_LONGEST];
    size_t got = 0;
    for (uint64_t i = 0; i < stripes; i++) {
        got += read_packets(j, marks, cards, packets + got);
    }
    return wh_rebuild_log(j->k, j->m, j->l, j->table, j->table_len, stripes, marks, packets, got,
                          sources, (size_t)stripes * j->stripe);
}

/* The cards that were not needed must be what these sources encode to. */
static void compare_other_cards(const job *j, uint64_t marks, FILE *const *cards,
                                const uint8_t *sources)
{
    uint8_t wanted[WH_LONGEST], found[WH_LONGEST];
    for (uint64_t packet = 1; packet <= j->k + j->m; packet++) {
        if (cards[packet - 1] == NULL || marks >> (packet - 1) & 1) {
            continue;
        }
        size_t length = packet_length(j, packet);
        read_packet(j, packet, cards[packet - 1], found, length);
        must(wh_packet(j->k, j->m, j->l, j->table, j->table_len, source_marks(j->k), sources,
                       j->stripe, packet, wanted, length),
             "cards:");
        if (memcmp(found, wanted, length) != 0) {
            refuse("a card is bad or of another log, or K, M or L is wrong, in", j->folder);
        }
    }
}

/* The last stripe was filled up with zeros: anything else is a log that goes on. */
static void refuse_more_log(const job *j, const uint8_t *sources, size_t used)
{
    for (size_t i = used; i < j->stripe; i++) {
        if (sources[i] != 0) {
            refuse("the log goes on after LENGTH bytes in", j->folder);
        }
    }
}

/* Puts a stripe's sources behind the log, of which `left` bytes are still to come. */
static void put_stripe(const job *j, uint64_t marks, FILE *const *cards, uint64_t left,
                       const uint8_t *sources, const output *log)
{
    size_t used = left < j->stripe ? (size_t)left : j->stripe;
    compare_other_cards(j, marks, cards, sources);
    refuse_more_log(j, sources, used);
    put(log, sources, used);
    if (left == used && sources[used - 1] == 0) {
        fputs("cards: the log ends with a zero byte: is LENGTH what write said?\n", stderr);
    }
}

/* As many stripes at a time as the library takes, and no more than are left. */
static void rebuild_stripes(const job *j, uint64_t marks, FILE *const *cards, uint64_t stripes,
                            uint64_t length, const output *log)
{
    uint8_t sources[WH_MAX_STRIPES * WH_MAX_K * WH_MAX_LENGTH];
    for (uint64_t first = 0; first < stripes; first += WH_MAX_STRIPES) {
        uint64_t next = stripes - first < WH_MAX_STRIPES ? stripes - first : WH_MAX_STRIPES;
        wh_log_rebuilt rebuilt = rebuild_next(j, marks, cards, next, sources);
        for (uint64_t i = 0; i < rebuilt.good; i++) {
            put_stripe(j, marks, cards, length - (first + i) * j->stripe, sources + i * j->stripe,
                       log);
        }
        if (rebuilt.number != WH_DONE) {
            fprintf(stderr, "cards: stripe %" PRIu64 ": %" PRIu64 ", %s\n",
                    first + rebuilt.good + 1, rebuilt.number, wh_meaning(rebuilt.number));
            exit(1);
        }
    }
}

static void read_cards(const job *j, uint64_t length)
{
    FILE *cards[CARDS_MOST] = {NULL};
    uint64_t stripes = length / j->stripe + (length % j->stripe != 0);
    refuse_files_given_twice(j);
    refuse_half_written(j);
    refuse_more_cards(j);
    uint64_t marks = open_cards(j, stripes, cards);
    rebuild_stripes(j, marks, cards, stripes, length, begin_output(j->log));
    finish_outputs();
    for (size_t i = 0; i < CARDS_MOST; i++) {
        if (cards[i] != NULL) {
            fclose(cards[i]);
        }
    }
    printf("%" PRIu64 " bytes from cards", length);
    print_marks(marks);
    printf("\n");
}

int main(int words, char **word)
{
    atexit(remove_begun);
    if (words == 7 && strcmp(word[1], "write") == 0) {
        job j = new_job(word + 2, word[5], word[6]);
        write_cards(&j);
    } else if (words == 8 && strcmp(word[1], "read") == 0) {
        job j = new_job(word + 2, word[7], word[6]);
        read_cards(&j, number_in(word[5]));
    } else {
        fputs(help, stderr);
        return 2;
    }
    if (fflush(stdout) != 0) {
        fail("the files are written, but not", "what was done");
    }
    return 0;
}
