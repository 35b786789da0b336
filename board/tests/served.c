/* The board's side of a test: takes questions, asks the library, sends the answers back. */
#include "message.h"
#include "semihosting.h"
#include "windhawker.h"

#include <stdbool.h>

/* Below the stack so much is painted: more than a call takes, for rebuild log as for the others. */
enum { PAINTED = 3072, PAINTED_FOR_LOG = 11264, OWN_FRAME = 64, PAINT = 0x5A };

static asked_message asked;
static answered_message answered;
static uint8_t room[BYTES_ANSWERED + 8];
static uint8_t *buffers[BUFFERS];
static uint64_t lengths[BUFFERS];

/* A length that is said of NULL, another one on each turn. It means nothing. */
static uint64_t length_of_null(size_t turn)
{
    const uint64_t lengths_said[] = {0, asked.m * asked.k, asked.k * asked.l, WH_LONGEST};
    return lengths_said[turn % 4];
}

/* The buffers stand one after another, so at any address, between two margins. An empty one is
 * NULL. */
static uint8_t *place_buffers(uint8_t *at, size_t turn)
{
    for (size_t i = 0; i < MARGIN; i++) {
        *at++ = MARGIN_BYTE;
    }
    for (int i = 0; i < BUFFERS; i++) {
        bool empty = asked.lengths[i] == 0;
        lengths[i] = empty ? length_of_null(turn) : asked.lengths[i];
        buffers[i] = empty ? NULL : at;
        at += bytes_sent(asked.lengths[i]);
    }
    for (size_t i = 0; i < MARGIN; i++) {
        at[i] = MARGIN_BYTE;
    }
    return at + MARGIN;
}

static void set_results(uint64_t first, uint64_t second, const uint64_t *rest, size_t count)
{
    answered.results[0] = first;
    answered.results[1] = second;
    for (size_t i = 0; i < RESULTS - 2; i++) {
        answered.results[2 + i] = i < count ? rest[i] : 0;
    }
}

#define SHAPE asked.k, asked.m, asked.l, buffers[TABLE], lengths[TABLE]

static uint64_t measure(wh_measured measured)
{
    set_results(measured.length, 0, NULL, 0);
    return measured.number;
}

static uint64_t judge(void)
{
    wh_judged judged = wh_judge(asked.k, asked.m, buffers[TABLE], lengths[TABLE]);
    set_results(judged.growing, 0, NULL, 0);
    return judged.number;
}

static uint64_t walk(void)
{
    wh_walked walked = wh_walk(SHAPE, asked.marks);
    set_results(walked.count, walked.whole, walked.progress, WH_MAX_K);
    return walked.number;
}

static uint64_t next_step(void)
{
    wh_stepped stepped = wh_next_step(SHAPE, asked.marks, asked.progress);
    set_results(stepped.parity, stepped.source, stepped.progress, WH_MAX_K);
    return stepped.number;
}

static uint64_t check_steps(void)
{
    wh_checked checked = wh_check_steps(SHAPE, asked.marks, buffers[INPUT], lengths[INPUT],
                                        buffers[SECOND_INPUT], lengths[SECOND_INPUT]);
    set_results(checked.place, 0, NULL, 0);
    return checked.number;
}

static uint64_t rebuild(void)
{
    wh_rebuilt rebuilt = wh_rebuild(SHAPE, asked.marks, buffers[INPUT], lengths[INPUT],
                                    buffers[OUTPUT], lengths[OUTPUT]);
    set_results(rebuilt.count, 0, NULL, 0);
    return rebuilt.number;
}

static uint64_t rebuild_log(void)
{
    wh_log_rebuilt rebuilt = wh_rebuild_log(SHAPE, asked.stripes, asked.marks, buffers[INPUT],
                                            lengths[INPUT], buffers[OUTPUT], lengths[OUTPUT]);
    set_results(rebuilt.good, rebuilt.count, NULL, 0);
    return rebuilt.number;
}

static uint64_t look(void)
{
    wh_looked looked = wh_look(SHAPE, asked.marks, asked.source, buffers[INPUT], lengths[INPUT],
                               buffers[SECOND_INPUT], lengths[SECOND_INPUT]);
    set_results(looked.buffer, looked.start, &looked.length, 1);
    return looked.number;
}

static uint64_t block(void)
{
    wh_taken taken = wh_block(buffers[INPUT], lengths[INPUT], buffers[OUTPUT], lengths[OUTPUT]);
    set_results(taken.length, taken.sequence, &taken.more, 1);
    return taken.number;
}

static uint64_t read_blocks(void)
{
    wh_joined joined =
        wh_read_blocks(buffers[INPUT], lengths[INPUT], buffers[OUTPUT], lengths[OUTPUT]);
    set_results(joined.length, 0, NULL, 0);
    return joined.number;
}

static uint64_t write_blocks(void)
{
    wh_written written = wh_write_blocks(buffers[INPUT], lengths[INPUT], asked.size,
                                         buffers[OUTPUT], lengths[OUTPUT]);
    set_results(written.length, 0, NULL, 0);
    return written.number;
}

__attribute__((noinline)) static uint64_t ask(void)
{
    set_results(0, 0, NULL, 0);
    switch ((call_number)asked.call) {
    case FAMILY_TABLE:
        return wh_family_table(asked.k, asked.m, asked.family, buffers[OUTPUT], lengths[OUTPUT]);
    case JUDGE:
        return judge();
    case PACKET_LENGTH:
        return measure(wh_packet_length(SHAPE, asked.packet));
    case PARITIES_LENGTH:
        return measure(wh_parities_length(SHAPE));
    case SURVIVORS_LENGTH:
        return measure(wh_survivors_length(SHAPE, asked.marks));
    case ENCODE_ALL:
        return wh_encode_all(SHAPE, buffers[INPUT], lengths[INPUT], buffers[OUTPUT],
                             lengths[OUTPUT]);
    case WALK:
        return walk();
    case NEXT_STEP:
        return next_step();
    case CHECK_STEPS:
        return check_steps();
    case REBUILD:
        return rebuild();
    case REBUILD_LOG:
        return rebuild_log();
    case PACKET:
        return wh_packet(SHAPE, asked.marks, buffers[INPUT], lengths[INPUT], asked.packet,
                         buffers[OUTPUT], lengths[OUTPUT]);
    case LOOK:
        return look();
    case BLOCK:
        return block();
    case READ_BLOCKS:
        return read_blocks();
    case WRITE_BLOCKS:
        return write_blocks();
    case CALLS:
        break;
    }
    leave(4);
}

/* Paints the memory below the stack, but for its own frame, and gives where the stack ends. */
__attribute__((noinline)) static volatile uint8_t *paint(int painted)
{
    volatile uint8_t *end = __builtin_frame_address(0);
    for (int i = OWN_FRAME; i < painted; i++) {
        end[-i] = PAINT;
    }
    return end;
}

/* Asks, and sees how far down the paint is gone. */
static void ask_on_paint(void)
{
    int painted = asked.call == REBUILD_LOG ? PAINTED_FOR_LOG : PAINTED;
    volatile uint8_t *end = paint(painted);
    answered.number = ask();
    int deep = painted - 1;
    while (deep > OWN_FRAME && end[-deep] == PAINT) {
        deep--;
    }
    answered.stack = (uint64_t)deep;
}

int main(void)
{
    long from = open_to_read("asked"), to = open_to_write("answered");
    for (size_t turn = 0; read_all(from, &asked, sizeof asked); turn++) {
        uint8_t *start = room + turn % 8;
        uint8_t *end = place_buffers(start, turn);
        size_t length = (size_t)(end - start) - 2 * MARGIN;
        if (!read_all(from, start + MARGIN, length)) {
            return 5;
        }
        ask_on_paint();
        if (!write_all(to, &answered, sizeof answered) ||
            !write_all(to, start, (size_t)(end - start))) {
            return 5;
        }
    }
    return 0;
}
