/* Every call. */
#ifndef CALLS_H
#define CALLS_H

#include "calls_block.h"
#include "calls_chain.h"
#include "calls_encode.h"
#include "calls_log.h"
#include "calls_packet.h"
#include "calls_rebuild.h"
#include "calls_steps.h"
#include "calls_table.h"
#include "calls_walk.h"

static const call *const calls[] = {
    &family_table_call,
    &judge_call,
    &packet_length_call,
    &parities_length_call,
    &survivors_length_call,
    &encode_all_call,
    &walk_call,
    &next_step_call,
    &check_steps_call,
    &rebuild_call,
    &rebuild_log_call,
    &packet_call,
    &look_call,
    &block_call,
    &read_blocks_call,
    &write_blocks_call,
};

enum { EVERY_CALL = sizeof calls / sizeof calls[0] };

#endif
