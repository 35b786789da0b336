/* Every call once, made right. tests/warnings_test makes wrong ones of them. */
#include "windhawker.h"

extern uint8_t table[4], input[4], rebuilt[4], output[4];
extern uint64_t progress[WH_MAX_K];

uint64_t ask_all(void);
uint64_t lend_nothing(uint8_t *maybe_null, uint64_t length);

uint64_t ask_all(void)
{
    uint64_t number = 0;
    number |= wh_family_table(2, 2, WH_HOUSE, output, 4);
    number |= wh_judge(2, 2, table, 4).number;
    number |= wh_packet_length(2, 2, 1, table, 4, 3).number;
    number |= wh_parities_length(2, 2, 1, table, 4).number;
    number |= wh_survivors_length(2, 2, 1, table, 4, 12).number;
    number |= wh_encode_all(2, 2, 1, table, 4, input, 4, output, 4);
    number |= wh_walk(2, 2, 1, table, 4, 12).number;
    number |= wh_next_step(2, 2, 1, table, 4, 12, progress).number;
    number |= wh_check_steps(2, 2, 1, table, 4, 12, input, 4, rebuilt, 4).number;
    number |= wh_rebuild(2, 2, 1, table, 4, 12, input, 4, output, 4).number;
    number |= wh_rebuild_log(2, 2, 1, table, 4, 1, 12, input, 4, output, 4).number;
    number |= wh_packet(2, 2, 1, table, 4, 12, input, 4, 3, output, 4);
    number |= wh_look(2, 2, 1, table, 4, 12, 1, input, 4, rebuilt, 4).number;
    number |= wh_block(input, 4, output, 4).number;
    number |= wh_read_blocks(input, 4, output, 4).number;
    number |= wh_write_blocks(input, 4, 2, output, 4).number;
    return number;
}

/* NULL with length 0, and any pointer with any length as far as a compiler can know. */
uint64_t lend_nothing(uint8_t *maybe_null, uint64_t length)
{
    uint64_t none = wh_family_table(2, 2, WH_HOUSE, NULL, 0);
    none |= wh_block(maybe_null, length, NULL, 0).number;
    none |= wh_read_blocks(maybe_null, length, NULL, 0).number;
    none |= wh_write_blocks(NULL, 0, 2, maybe_null, length).number;
    none |= wh_judge(2, 2, maybe_null, length).number;
    none |= wh_check_steps(2, 2, 1, maybe_null, length, 3, NULL, 0, NULL, 0).number;
    none |= wh_rebuild(2, 2, 1, NULL, 0, 12, maybe_null, length, NULL, 0).number;
    none |= wh_rebuild_log(2, 2, 1, NULL, 0, 1, 12, maybe_null, length, NULL, 0).number;
    return none;
}
