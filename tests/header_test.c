/* The header by itself, as a student's first program has it. It compiles as C99 and as C++. */
#include "windhawker.h"
#include "windhawker.h" /* a second time changes nothing */

#include <stdio.h>
#include <string.h>

#ifdef __cplusplus
static const char language[] = "cpp";
#else
static const char language[] = "c";
#endif

static int failures;

static void check(int right, const char *name)
{
    printf(right ? "ok header_%s_in_%s\n" : "FAIL header_%s_in_%s: wrong\n", name, language);
    failures += right ? 0 : 1;
}

static int version_fits(void)
{
    char start[32];
    int length = sprintf(start, "%d.%d.", WH_VERSION_MAJOR, WH_VERSION_MINOR);
    return strncmp(WH_VERSION, start, (size_t)length) == 0;
}

/* Each number of the list has a meaning of its own; all others share one. */
static int meanings_differ(void)
{
    const char *none = wh_meaning(UINT64_MAX);
    for (uint64_t i = 0; i < 256; i++) {
        for (uint64_t j = 0; j < i && strcmp(wh_meaning(i), none) != 0; j++) {
            if (strcmp(wh_meaning(i), wh_meaning(j)) == 0) {
                return 0;
            }
        }
    }
    return strcmp(wh_meaning(WH_DONE), none) != 0 && strcmp(wh_meaning(WH_LINE), none) != 0 &&
           strcmp(wh_meaning(WH_FAMILY), none) != 0 && strcmp(wh_meaning(WH_CUT), none) != 0;
}

static int ends_with(const char *words, int limit)
{
    char end[12];
    size_t length = (size_t)sprintf(end, " %d", limit);
    return strlen(words) > length && strcmp(words + strlen(words) - length, end) == 0;
}

static int meanings_have_the_limits(void)
{
    return ends_with(wh_meaning(WH_SIZE), WH_MAX_K) && ends_with(wh_meaning(WH_SIZE), WH_MAX_M) &&
           ends_with(wh_meaning(WH_LENGTH), WH_MAX_LENGTH) &&
           ends_with(wh_meaning(WH_TABLE), WH_MAX_SHIFT) &&
           ends_with(wh_meaning(WH_FAMILY), WH_FAMILIES) &&
           ends_with(wh_meaning(WH_STRIPES), WH_MAX_STRIPES) &&
           ends_with(wh_meaning(WH_INPUT), WH_LONGEST) &&
           ends_with(wh_meaning(WH_CUT), WH_MAX_INFORMATION);
}

static int says(uint64_t number, const char *words)
{
    return strstr(wh_meaning(number), words) != NULL;
}

/* The numbers that say least by themselves say what to look at. */
static int meanings_say_what_to_look_at(void)
{
    return says(WH_INPUT, "k * l") && says(WH_INPUT, "wh_survivors_length") &&
           says(WH_INPUT, "stripes") && says(WH_OUTPUT, "stripes") && says(WH_OUTPUT, "m * k") &&
           says(WH_OUTPUT, "k * l") && says(WH_OUTPUT, "wh_packet_length") &&
           says(WH_OUTPUT, "wh_parities_length") && says(WH_PACKET, "1 to k + m") &&
           says(WH_PACKET, "1 to k,") && says(WH_PACKET, "marks");
}

typedef struct {
    const char *buffer;
    uint64_t number, right;
} given;

static int all_right(const given *answers, size_t count)
{
    int right = 1;
    for (size_t i = 0; i < count; i++) {
        if (answers[i].number != answers[i].right) {
            printf("NULL for %s: %s\n", answers[i].buffer, wh_meaning(answers[i].number));
            right = 0;
        }
    }
    return right;
}

/* Every buffer of every call, NULL with the exact length: as if it had no bytes. */
static int null_is_no_bytes(void)
{
    static uint8_t *volatile none = NULL; /* volatile, or the compiler says it first */
    static const uint8_t table[4] = {0, 1, 0, 2}, two[2] = {0x80, 0xC0}; /* sources */
    static const uint8_t four[4] = {0x00, 0x01, 0x80, 0x03}; /* their parities */
    static const uint8_t block[6] = {0, 0, 2, 3, 4, 5};
    static const uint8_t empty_block[4] = {0, 0, 0, 0};
    static const uint8_t empty_run[8] = {0, 0x20, 0, 0x20, 0, 0x40, 0, 0x40};
    const uint64_t progress[WH_MAX_K] = {0};
    uint8_t out[4];
    const given answers[] = {
        {"the family table", wh_family_table(2, 2, WH_HOUSE, none, 4), WH_OUTPUT},
        {"judge's table", wh_judge(2, 2, none, 4).number, WH_TABLE},
        {"packet length's table", wh_packet_length(2, 2, 1, none, 4, 3).number, WH_TABLE},
        {"parities length's table", wh_parities_length(2, 2, 1, none, 4).number, WH_TABLE},
        {"survivors length's table", wh_survivors_length(2, 2, 1, none, 4, 12).number, WH_TABLE},
        {"encode all's table", wh_encode_all(2, 2, 1, none, 4, two, 2, out, 4), WH_TABLE},
        {"encode all's sources", wh_encode_all(2, 2, 1, table, 4, none, 2, out, 4), WH_INPUT},
        {"all parities", wh_encode_all(2, 2, 1, table, 4, two, 2, none, 4), WH_OUTPUT},
        {"walk's table", wh_walk(2, 2, 1, none, 4, 12).number, WH_TABLE},
        {"next step's table", wh_next_step(2, 2, 1, none, 4, 12, progress).number, WH_TABLE},
        {"check steps' table", wh_check_steps(2, 2, 1, none, 4, 12, two, 2, four, 2).number,
         WH_TABLE},
        {"the steps' parities", wh_check_steps(2, 2, 1, table, 4, 12, none, 2, two, 2).number,
         WH_STEPS_UNEQUAL},
        {"the steps' sources", wh_check_steps(2, 2, 1, table, 4, 12, two, 2, none, 2).number,
         WH_STEPS_UNEQUAL},
        {"a list of steps", wh_check_steps(2, 2, 1, table, 4, 12, none, 2, none, 2).number,
         WH_STEPS_EARLY},
        {"a list of no steps", wh_check_steps(2, 2, 1, table, 4, 3, none, 2, none, 7).number,
         WH_DONE},
        {"rebuild's table", wh_rebuild(2, 2, 1, none, 4, 12, four, 4, out, 2).number, WH_TABLE},
        {"rebuild's packets", wh_rebuild(2, 2, 1, table, 4, 12, none, 4, out, 2).number, WH_INPUT},
        {"all sources", wh_rebuild(2, 2, 1, table, 4, 12, four, 4, none, 2).number, WH_OUTPUT},
        {"the log's table", wh_rebuild_log(2, 2, 1, none, 4, 1, 12, four, 4, out, 2).number,
         WH_TABLE},
        {"the log's packets", wh_rebuild_log(2, 2, 1, table, 4, 1, 12, none, 4, out, 2).number,
         WH_INPUT},
        {"the log's sources", wh_rebuild_log(2, 2, 1, table, 4, 1, 12, four, 4, none, 2).number,
         WH_OUTPUT},
        {"packet's table", wh_packet(2, 2, 1, none, 4, 12, four, 4, 1, out, 1), WH_TABLE},
        {"packet's packets", wh_packet(2, 2, 1, table, 4, 12, none, 4, 1, out, 1), WH_INPUT},
        {"packet's sources", wh_packet(2, 2, 1, table, 4, 3, none, 2, 3, out, 2), WH_INPUT},
        {"one packet", wh_packet(2, 2, 1, table, 4, 12, four, 4, 1, none, 1), WH_OUTPUT},
        {"one packet of sources", wh_packet(2, 2, 1, table, 4, 3, two, 2, 3, none, 2), WH_OUTPUT},
        {"look's table", wh_look(2, 2, 1, none, 4, 12, 1, four, 4, two, 2).number, WH_TABLE},
        {"look's survivors", wh_look(2, 2, 1, table, 4, 12, 1, none, 4, two, 2).number, WH_INPUT},
        {"look's sources", wh_look(2, 2, 1, table, 4, 12, 1, four, 4, none, 2).number, WH_INPUT},
        {"the block", wh_block(none, 6, out, 4).number, WH_BLOCK_SHORT},
        {"the destination", wh_block(block, 6, none, 4).number, WH_ROOM},
        {"the destination of no bytes", wh_block(empty_block, 4, none, 4).number, WH_DONE},
        {"the run", wh_read_blocks(none, 6, out, 4).number, WH_BLOCK_SHORT},
        {"the run's destination", wh_read_blocks(block, 6, none, 4).number, WH_ROOM},
        {"the empty run's destination", wh_read_blocks(empty_run, 8, none, 4).number, WH_DONE},
        {"the packet of no bytes", wh_write_blocks(none, 2, 1, out, 4).number, WH_DONE},
        {"the blocks", wh_write_blocks(two, 2, 2, none, 6).number, WH_ROOM},
    };
    return all_right(answers, sizeof answers / sizeof answers[0]);
}

static int links_and_runs(void)
{
    uint8_t table[4];
    return wh_family_table(2, 2, WH_HOUSE, table, sizeof table) == WH_DONE && table[3] == 2;
}

int main(void)
{
    check(version_fits(), "version_fits");
    check(meanings_differ(), "meanings_differ");
    check(meanings_have_the_limits(), "meanings_have_the_limits");
    check(meanings_say_what_to_look_at(), "meanings_say_what_to_look_at");
    check(null_is_no_bytes(), "null_is_no_bytes");
    check(links_and_runs(), "links_and_runs");
    return failures == 0 ? 0 : 1;
}
