/* Printed by the program limits, from the constants of the crates table and chain. */

#ifndef WINDHAWKER_LIMITS_H
#define WINDHAWKER_LIMITS_H

/* The limits of the shift table's type, and of a packet's blocks. */
#define WH_MAX_K 8
#define WH_MAX_M 8
#define WH_MAX_LENGTH 56
#define WH_MAX_SHIFT 64
#define WH_LONGEST 64
#define WH_FAMILIES 3
#define WH_MAX_STRIPES 16
#define WH_MAX_INFORMATION 254
#define WH_BLOCKS_LONGEST 320

/* The families of shift tables. */
#define WH_HOUSE 1
#define WH_HANKEL 2
#define WH_VANDERMONDE 3

/* The list of numbers. */
#define WH_DONE 0
#define WH_SIZE 1
#define WH_LENGTH 2
#define WH_TABLE 3
#define WH_INPUT 4
#define WH_OUTPUT 5
#define WH_PACKET 6
#define WH_MARKS 7
#define WH_STALL 8
#define WH_STRAY 9
#define WH_FOREIGN 10
#define WH_BLOCK_SHORT 11
#define WH_BLOCK_RESERVED 12
#define WH_BLOCK_LENGTH 13
#define WH_BLOCK_SUM 14
#define WH_BLOCK_HEADER 15
#define WH_ROOM 16
#define WH_PROGRESS 17
#define WH_LINE 18
#define WH_FAMILY 19
#define WH_BLOCK_TURN 20
#define WH_BLOCK_END 21
#define WH_STEPS_UNEQUAL 22
#define WH_STEP_NOT_BARE 23
#define WH_STEPS_EARLY 24
#define WH_STRIPES 25
#define WH_CUT 36

#endif
