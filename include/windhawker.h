/*
 * Windhawker: spread a logbook over memory cards, lose some, read it back.
 *
 * SOURCES, PARITIES, PACKETS
 *   The logbook is cut into k sources of l bytes each. From them the code makes m parities.
 *   Each card carries one packet: packets 1 to k are the sources themselves, packets k + 1 to
 *   k + m are the parities 1 to m. Any k of the n = k + m packets are meant to give the sources
 *   back. k and m are 1 to 8, l is 1 to 56. windhawker_limits.h has the limits as macros, for the
 *   sizes of arrays; WH_LONGEST is the bytes of the longest packet that there can be.
 *
 * THE SHIFT TABLE
 *   m rows of k entries, row by row, one byte each, 0 to 64. Entry (a, b) says how many bits
 *   source b is shifted up before it is added (XOR) into parity a. The largest entry of row a is
 *   called r_a: parity a has r_a bits more than a source.
 *   wh_family_table makes tables with which any k packets work. There are three families of them.
 *   Small entries mean less room lost at the top of the parities. The largest of the whole table is
 *      WH_HOUSE        1: m * (k - 1), in the last row
 *      WH_HANKEL       2: h * (h - 1) / 2, where h is n / 2 rounded down
 *      WH_VANDERMONDE  3: (m - 1) * (k - 1), in the last row
 *   With k = m = 8 all parities together take 35, 19 and 28 bytes more than m sources. None is best
 *   for all k and m: with k = 2 and m = 8 it is 8, 8 and 7. The lab uses WH_HOUSE unless it is told
 *   otherwise.
 *
 * BITS
 *   Bit p of a packet is bit p % 8 of byte p / 8, lowest bit first. Parity a is the XOR, over all
 *   sources b, of source b shifted up by entry (a, b); the bits past that sum are 0.
 *
 * LENGTHS
 *   A source takes l bytes. A parity takes what its own row needs, the fewest bytes that hold
 *   8 * l + r_a bits, so the parities of one table may differ in length: with rows 0 1 and 0 9 and
 *   l = 1 they take 2 and 3 bytes. Sources to encode, and rebuilt sources, are k * l bytes, source
 *   1 first. All parities, and packets at hand, stand one after another, lowest packet number
 *   first, with no gaps. Lengths are exact: one byte too many is refused like one too few.
 *   wh_packet_length, wh_parities_length and wh_survivors_length do the sums. Only where blocks are
 *   read or written may the destination be longer, and lists of steps may have any length.
 *
 * MARKS
 *   The packets at hand, told as one number: bit 0 is set when packet 1 is there, bit 1 for packet
 *   2, and so on. Packets 3 and 4 are marks 12. Exactly k marks are set: where more packets are
 *   there, mark k of them and lend only those.
 *
 * STRIPES
 *   A log that is longer than k sources is cut into stripes, one after another, each of k sources
 *   of l bytes and coded by itself. All stripes have the same table and the same l, and card i has
 *   packet i of each, so they also have the same marks. wh_rebuild takes one stripe, wh_rebuild_log
 *   1 to 16 of them (WH_MAX_STRIPES): the packets at hand of the first stripe, then those of the
 *   second, and so on, with no gaps. The sources come out in the same way.
 *
 * STEPS, PROGRESS
 *   Decoding uncovers one bit at a time. progress[b - 1] says how many bits of source b are
 *   uncovered; it stays 0 for a source that is at hand and for numbers above k. A missing source is
 *   finished when its progress is 8 * l, and unfinished until then. A parity a at hand and a
 *   missing, unfinished source b are a bare pair when entry (a, b) + progress of b is less than
 *   entry (a, c) + progress of c for every other missing, unfinished source c. A step takes a bare
 *   pair and uncovers one more bit of b. When nothing is bare and something is missing, the
 *   decoding has stalled.
 *
 * LISTS OF STEPS
 *   An order of steps as it is written down: for each step, first to last, the number of its
 *   parity, 1 to m and not a packet number, in one list of bytes, and that of its source, 1 to k,
 *   in another, equally long. The bit that a step uncovers is always the source's next one and is
 *   not written. Where nothing else is wrong, wh_check_steps gives WH_DONE exactly when each pair
 *   is bare when its turn comes and all missing sources are finished at the end. If not, it tells
 *   where the list goes wrong: the place, from 1, of the first step that is not bare, or the length
 *   of a list that only ends early. With the house table of k = m = 2, l = 1 and marks 5, where
 *   source 2 is missing and parity 1 at hand, one list is right: parities 1 1 1 1 1 1 1 1, sources
 *   2 2 2 2 2 2 2 2. Where more is missing several may be right, all of 8 * l steps for each
 *   missing source, and where the decoding stalls none is. With marks 12, parities 1 1 and sources
 *   1 2 are refused at place 2: once a bit of source 1 is uncovered, the next bits of both sources
 *   stand at the same place of parity 1.
 *
 * BLOCKS, RUNS
 *   A card reader hands a packet over in blocks (I-blocks of ISO/IEC 7816-3, protocol T=1). The
 *   bytes of a block are NAD, the node address; PCB, the control byte; LEN; LEN bytes of
 *   information; and LRC, the XOR of all bytes before it. A card's information field is 32 bytes by
 *   default, so a parity of 64 bytes comes as several blocks, one after another: a run. Two bits of
 *   PCB tell where in the run a block stands. N(S), the send number (40 hex), is 0 in the first
 *   block, 1 in the second, 0 in the third, and so on; each packet's run begins with 0 here, where
 *   the standard counts on from packet to packet. M ("more", 20 hex) is set in all blocks but the
 *   last. The packet is the information of all blocks, joined. wh_read_blocks takes a whole run;
 *   wh_write_blocks makes one of a packet, of at most WH_BLOCKS_LONGEST bytes. wh_block takes one
 *   block and tells its N(S) and M. A block with M set is not a whole packet, and one with N(S) 1
 *   does not begin one: where a packet may come in more than one block, use wh_read_blocks.
 *
 * NUMBERS
 *   Every call answers with a number of this list; windhawker_limits.h has their names as macros.
 *      0  WH_DONE            done
 *   Anything else means refused, and is the first of these, in this order, that holds (a call makes
 *   the checks that it has the input for):
 *      1  WH_SIZE            k or m is outside 1 to 8
 *     19  WH_FAMILY          the family is outside 1 to 3
 *      2  WH_LENGTH          l is outside 1 to 56
 *      3  WH_TABLE           the table is not m * k bytes long, or an entry is above 64
 *     25  WH_STRIPES         the stripes are outside 1 to 16
 *      6  WH_PACKET          a packet number is outside 1 to n, a source number outside 1 to k,
 *                            or a mark above n is set
 *      7  WH_MARKS           the marks are not exactly k
 *     17  WH_PROGRESS        a progress is above 8 * l, or is not 0 for a source at hand or for a
 *                            number above k
 *     36  WH_CUT             the size to cut a packet by is outside 1 to 254
 *      4  WH_INPUT           an input buffer has not the exact length: sources take k * l bytes,
 *                            packets at hand take wh_survivors_length, those of a log that much
 *                            for each stripe; or a packet that is to be cut into blocks is above
 *                            WH_LONGEST bytes
 *      5  WH_OUTPUT          an output buffer has not the exact length: a table takes m * k bytes,
 *                            sources k * l, those of a log that much for each stripe, a packet
 *                            wh_packet_length, all parities wh_parities_length
 *     22  WH_STEPS_UNEQUAL   the two lists of steps differ in length
 *     23  WH_STEP_NOT_BARE   a step of the list is not bare when its turn comes; nor is one whose
 *                            numbers are those of no parity or no source
 *     24  WH_STEPS_EARLY     the list ends before all missing sources are finished
 *      8  WH_STALL           stalled: no order of steps finishes all missing sources
 *      9  WH_STRAY           a parity at hand has a one above its last bit, 8 * l + r_a - 1
 *     10  WH_FOREIGN         no sources encode to these packets
 *   and for a block from a card reader, in this order. In a run the next block is looked at only
 *   when the one before it passes and has M set. WH_ROOM comes once, last:
 *     11  WH_BLOCK_SHORT     the block has fewer than 4 bytes; in a run: fewer than 4 are left
 *     12  WH_BLOCK_RESERVED  its length byte LEN is 255, which is reserved
 *     13  WH_BLOCK_LENGTH    it is not LEN + 4 bytes long; in a run: fewer than that are left
 *     14  WH_BLOCK_SUM       the XOR of all its bytes is not 0
 *     15  WH_BLOCK_HEADER    NAD is not 00, or PCB is none of 00 20 40 60 hex
 *     20  WH_BLOCK_TURN      N(S) is out of turn
 *     21  WH_BLOCK_END       the run ends with M set, or goes on after a block without it: M and
 *                            nothing left, or no M and any byte left
 *     16  WH_ROOM            the destination is too short for what is to be written there: a
 *                            block's information, a run's joined bytes, or the blocks
 *   The program class_sheet has one more, before all others:
 *     18  WH_LINE            its input is not one line `k m L`
 *
 * ERASURES, NOT ERRORS
 *   The code fills in packets that are known to be lost. It does not find one that is there and
 *   wrong: k packets tell nothing about which of them is bad. WH_STRAY and WH_FOREIGN notice only
 *   what no sources encode to; anything else comes out as WH_DONE and wrong sources. Of all one-bit
 *   errors at k, m, l = 4, 2, 48 with the house table, 52 of 9248 are noticed with one card lost
 *   and the first four of the others used, 7154 of 23200 with two cards lost, and none where all
 *   sources are at hand. More cards than needed tell more: rebuild from two choices of k cards and
 *   compare. With one card to spare that shows every one of these errors. lab/6_errors.c counts.
 *
 * WHAT YOU LEND
 *   A buffer is a pointer and its length in bytes, always in that order. No call reads or writes
 *   anything else, and none keeps a pointer after it returns. A refused call writes nothing: your
 *   output keeps its old bytes, and the results that come back by value are 0 unless a call says
 *   otherwise. There is one exception: wh_rebuild_log stops at the first bad stripe, with WH_STRAY
 *   or WH_FOREIGN, and has then written the sources of the good stripes before it; from there on
 *   the output keeps its old bytes. Buffers that you lend to one call must not overlap. Any numbers
 *   and any bytes may be passed: nothing is cut to fewer bits on its way in, and lengths have 64
 *   bits on every board. NULL is a buffer of length 0, whatever length stands beside it, and is
 *   refused as that: with WH_TABLE, WH_INPUT, WH_OUTPUT, WH_BLOCK_SHORT, for a destination WH_ROOM,
 *   for a list of steps WH_STEPS_UNEQUAL or WH_STEPS_EARLY. Length 0 is right in three places only:
 *   the destination of a block or a run that has no information, the packet that wh_write_blocks
 *   cuts, and both lists of steps where no source is missing. So a packet that is NULL is an empty
 *   one, and not refused, nor are two such lists there: look at a pointer that may be NULL before
 *   you lend it. Progress is not NULL: it is always an array of WH_MAX_K numbers.
 *
 * WARNINGS
 *   With -Wall, gcc and clang warn where a call's number or struct is not looked at at all, and
 *   where progress is NULL. gcc, from 10 on, also warns where a buffer is shorter than the length
 *   beside it, or is NULL with a length, as far as it knows both. It takes sources[0] of an array
 *   of arrays for one of them: lend the whole as (uint8_t *)sources. A struct of which only the
 *   other members are read passes: look at its number first.
 */
#ifndef WINDHAWKER_H
#define WINDHAWKER_H

#include <stddef.h>
#include <stdint.h>

#include "windhawker_limits.h"

#define WH_VERSION "0.7.0"
#define WH_VERSION_MAJOR 0
#define WH_VERSION_MINOR 7

/* What a compiler is told about the calls; one that does not know the words is told nothing.
 * WH_LOOK_AT_IT: the answer is looked at. WH_READS(3, 4): parameter 3 is a buffer that is read, of
 * as many bytes as parameter 4 says. WH_WRITES: the same of one that is written. WH_LENT: the same
 * of one whose bytes are not looked at. WH_PLACE(8): parameter 8 is the place of such a one.
 * WH_NEEDS(7): parameter 7 is not NULL. */
#ifdef __has_attribute
#if __has_attribute(__warn_unused_result__)
#define WH_LOOK_AT_IT __attribute__((__warn_unused_result__))
#endif
#if __has_attribute(__access__)
#define WH_READS(bytes, length) __attribute__((__access__(__read_only__, bytes, length)))
#define WH_WRITES(bytes, length) __attribute__((__access__(__write_only__, bytes, length)))
#endif
#if __GNUC__ >= 11 && __has_attribute(__access__)
#define WH_LENT(bytes, length) __attribute__((__access__(__none__, bytes, length)))
#define WH_PLACE(bytes) __attribute__((__access__(__none__, bytes)))
#endif
#if __has_attribute(__nonnull__)
#define WH_NEEDS(pointer) __attribute__((__nonnull__(pointer)))
#endif
#endif
#ifndef WH_LOOK_AT_IT
#define WH_LOOK_AT_IT
#endif
#ifndef WH_READS
#define WH_READS(bytes, length)
#define WH_WRITES(bytes, length)
#endif
#ifndef WH_LENT
#define WH_LENT(bytes, length)
#define WH_PLACE(bytes)
#endif
#ifndef WH_NEEDS
#define WH_NEEDS(pointer)
#endif

#ifdef __cplusplus
extern "C" {
#endif

/* A limit as text, for messages: "1 to " WH_TEXT(WH_MAX_K). */
#define WH_TEXT(limit) WH_DIGITS(limit)
#define WH_DIGITS(digits) #digits

/* What a number means, in a few words. */
static inline const char *wh_meaning(uint64_t number)
{
    switch (number) {
    case WH_DONE: return "done";
    case WH_SIZE: return "k or m is outside 1 to " WH_TEXT(WH_MAX_K);
    case WH_LENGTH: return "the source length is outside 1 to " WH_TEXT(WH_MAX_LENGTH);
    case WH_TABLE: return "the table has a wrong length or an entry above " WH_TEXT(WH_MAX_SHIFT);
    case WH_INPUT: return "an input buffer has not the exact length: sources take k * l bytes, "
                          "packets at hand take wh_survivors_length (times the stripes of a log), "
                          "a packet that is to be cut into blocks at most " WH_TEXT(WH_LONGEST);
    case WH_OUTPUT: return "an output buffer has not the exact length: a table takes m * k bytes, "
                           "sources k * l (times the stripes of a log), a packet "
                           "wh_packet_length, all parities wh_parities_length";
    case WH_PACKET: return "no such packet, source or mark: packets are 1 to k + m, "
                           "sources 1 to k, marks the lowest k + m bits";
    case WH_MARKS: return "the marks are not exactly k";
    case WH_STALL: return "the decoding stalls";
    case WH_STRAY: return "a parity has a one above its last bit";
    case WH_FOREIGN: return "no sources encode to these packets";
    case WH_BLOCK_SHORT: return "the block has fewer than 4 bytes";
    case WH_BLOCK_RESERVED: return "the block's length byte is 255";
    case WH_BLOCK_LENGTH: return "the block is not as long as its length byte says";
    case WH_BLOCK_SUM: return "the block's bytes do not XOR to 0";
    case WH_BLOCK_HEADER: return "the block's NAD is not 00, or its PCB is none of 00 20 40 60 hex";
    case WH_ROOM: return "the destination is too short for what is to be written there";
    case WH_PROGRESS: return "progress that no source can have";
    case WH_LINE: return "the input is not one line `k m L`";
    case WH_FAMILY: return "the family is outside 1 to " WH_TEXT(WH_FAMILIES);
    case WH_BLOCK_TURN: return "the block's N(S) is out of turn";
    case WH_BLOCK_END: return "the run ends with M set, or goes on after a block without it";
    case WH_STEPS_UNEQUAL: return "the lists of steps differ in length";
    case WH_STEP_NOT_BARE: return "a step is not bare when its turn comes";
    case WH_STEPS_EARLY: return "the list of steps ends before all missing sources are finished";
    case WH_STRIPES: return "the stripes are outside 1 to " WH_TEXT(WH_MAX_STRIPES);
    case WH_CUT: return "the size to cut a packet by is outside 1 to " WH_TEXT(WH_MAX_INFORMATION);
    default: return "no number of the list";
    }
}

/* The library wants a place even for no bytes, so NULL becomes the place of one. */
WH_PLACE(1)
static inline const uint8_t *wh_read_place(const uint8_t *bytes)
{
    static const uint8_t nothing = 0;
    return bytes == NULL ? &nothing : bytes;
}

static inline uint8_t *wh_write_place(uint8_t *bytes)
{
    static uint8_t nothing = 0;
    return bytes == NULL ? &nothing : bytes;
}

/* The functions whx_ are what the archive exports: the number comes back, the other results go
 * into slots, which are set on every call. Use the functions wh_, which hand out structs and take
 * NULL, whatever length stands beside it, for no bytes. */

/* ---- Tables and lengths ---------------------------------------------------------------------- */

typedef struct {
    uint64_t number;
    uint64_t growing; /* 1 yes, 0 no */
} wh_judged;

typedef struct {
    uint64_t number;
    uint64_t length; /* in bytes */
} wh_measured;

WH_LOOK_AT_IT
uint64_t whx_family_table(uint64_t k, uint64_t m, uint64_t family, uint8_t *out, uint64_t out_len);
WH_LOOK_AT_IT
uint64_t whx_judge(uint64_t k, uint64_t m, const uint8_t *table, uint64_t table_len,
                   uint64_t *growing);
WH_LOOK_AT_IT
uint64_t whx_packet_length(uint64_t k, uint64_t m, uint64_t l, const uint8_t *table,
                           uint64_t table_len, uint64_t packet, uint64_t *length);
WH_LOOK_AT_IT
uint64_t whx_parities_length(uint64_t k, uint64_t m, uint64_t l, const uint8_t *table,
                             uint64_t table_len, uint64_t *length);
WH_LOOK_AT_IT
uint64_t whx_survivors_length(uint64_t k, uint64_t m, uint64_t l, const uint8_t *table,
                              uint64_t table_len, uint64_t marks, uint64_t *length);

/* Writes the table of a family, m * k bytes. Entry (a, b) is a * (b - 1) for WH_HOUSE and
 * (a - 1) * (b - 1) for WH_VANDERMONDE. For WH_HANKEL, with m at least k, it is t * (t + 1) / 2,
 * where t is d + a - m + b - 1, which may be below 0, and d is (m - k) / 2 rounded down; with m
 * below k it is entry (b, a) of the table for k and m exchanged. Checks 1 19 5. */
WH_LOOK_AT_IT WH_WRITES(4, 5)
static inline uint64_t wh_family_table(uint64_t k, uint64_t m, uint64_t family, uint8_t *out,
                                       uint64_t out_len)
{
    return whx_family_table(k, m, family, wh_write_place(out), out == NULL ? 0 : out_len);
}

/* Says whether the table has growing differences: for rows a < a' and columns b < b',
 * entry (a, b') - entry (a, b) is less than entry (a', b') - entry (a', b). With such a table any
 * k packets work. Without, some may: wh_walk tells. Checks 1 3. */
WH_LOOK_AT_IT WH_READS(3, 4)
static inline wh_judged wh_judge(uint64_t k, uint64_t m, const uint8_t *table, uint64_t table_len)
{
    wh_judged judged;
    judged.number =
        whx_judge(k, m, wh_read_place(table), table == NULL ? 0 : table_len, &judged.growing);
    return judged;
}

/* Gives the exact bytes of a packet: l for a source, for a parity what its own row of the table
 * needs. Ask for each: parities of one table may differ. Checks 1 2 3 6. */
WH_LOOK_AT_IT WH_READS(4, 5)
static inline wh_measured wh_packet_length(uint64_t k, uint64_t m, uint64_t l, const uint8_t *table,
                                           uint64_t table_len, uint64_t packet)
{
    wh_measured measured;
    measured.number = whx_packet_length(k, m, l, wh_read_place(table),
                                        table == NULL ? 0 : table_len, packet, &measured.length);
    return measured;
}

/* Gives the exact bytes of all m parities together: what wh_encode_all writes. Checks 1 2 3. */
WH_LOOK_AT_IT WH_READS(4, 5)
static inline wh_measured wh_parities_length(uint64_t k, uint64_t m, uint64_t l,
                                             const uint8_t *table, uint64_t table_len)
{
    wh_measured measured;
    measured.number = whx_parities_length(k, m, l, wh_read_place(table),
                                          table == NULL ? 0 : table_len, &measured.length);
    return measured;
}

/* Gives the exact bytes of all packets at hand together. Checks 1 2 3 6 7. */
WH_LOOK_AT_IT WH_READS(4, 5)
static inline wh_measured wh_survivors_length(uint64_t k, uint64_t m, uint64_t l,
                                              const uint8_t *table, uint64_t table_len,
                                              uint64_t marks)
{
    wh_measured measured;
    measured.number = whx_survivors_length(k, m, l, wh_read_place(table),
                                           table == NULL ? 0 : table_len, marks, &measured.length);
    return measured;
}

/* ---- Encode ---------------------------------------------------------------------------------- */

WH_LOOK_AT_IT
uint64_t whx_encode_all(uint64_t k, uint64_t m, uint64_t l, const uint8_t *table,
                        uint64_t table_len, const uint8_t *sources, uint64_t sources_len,
                        uint8_t *out, uint64_t out_len);

/* Writes all m parities, parity 1 first, each as long as its own row needs, with no gaps:
 * wh_parities_length bytes. One packet alone is encoded by wh_packet. Checks 1 2 3 4 5. */
WH_LOOK_AT_IT WH_READS(4, 5) WH_READS(6, 7) WH_WRITES(8, 9)
static inline uint64_t wh_encode_all(uint64_t k, uint64_t m, uint64_t l, const uint8_t *table,
                                     uint64_t table_len, const uint8_t *sources,
                                     uint64_t sources_len, uint8_t *out, uint64_t out_len)
{
    return whx_encode_all(k, m, l, wh_read_place(table), table == NULL ? 0 : table_len,
                          wh_read_place(sources), sources == NULL ? 0 : sources_len,
                          wh_write_place(out), out == NULL ? 0 : out_len);
}

/* ---- Walk and step --------------------------------------------------------------------------- */

typedef struct {
    uint64_t number;
    uint64_t count;              /* steps made */
    uint64_t whole;              /* 1 when every missing source is finished, else 0 */
    uint64_t progress[WH_MAX_K]; /* where the walk ends */
} wh_walked;

typedef struct {
    uint64_t number;
    uint64_t parity;             /* 1 to m, or 0 when no pair is bare */
    uint64_t source;             /* 1 to k, or 0 when no pair is bare */
    uint64_t progress[WH_MAX_K]; /* after the step */
} wh_stepped;

WH_LOOK_AT_IT
uint64_t whx_walk(uint64_t k, uint64_t m, uint64_t l, const uint8_t *table, uint64_t table_len,
                  uint64_t marks, uint64_t *count, uint64_t *whole, uint64_t progress[WH_MAX_K]);
WH_LOOK_AT_IT
uint64_t whx_next_step(uint64_t k, uint64_t m, uint64_t l, const uint8_t *table, uint64_t table_len,
                       uint64_t marks, const uint64_t progress[WH_MAX_K], uint64_t *parity,
                       uint64_t *source, uint64_t after[WH_MAX_K]);

/* Walks the decoding without data, from progress 0 until nothing is bare. A stall is no refusal
 * here: the number is 0 and whole is 0. Every order of steps ends at the same progress after the
 * same count. Checks 1 2 3 6 7. */
WH_LOOK_AT_IT WH_READS(4, 5)
static inline wh_walked wh_walk(uint64_t k, uint64_t m, uint64_t l, const uint8_t *table,
                                uint64_t table_len, uint64_t marks)
{
    wh_walked walked;
    walked.number = whx_walk(k, m, l, wh_read_place(table), table == NULL ? 0 : table_len, marks,
                             &walked.count, &walked.whole, walked.progress);
    return walked;
}

/* Takes one step from the given progress: the bare pair with the lowest parity, and the progress
 * after it. With nothing bare the pair is (0, 0) and the progress is the same; refused, the pair
 * is (0, 0) and the progress all zeros. Checks 1 2 3 6 7 17. */
WH_LOOK_AT_IT WH_READS(4, 5) WH_NEEDS(7)
static inline wh_stepped wh_next_step(uint64_t k, uint64_t m, uint64_t l, const uint8_t *table,
                                      uint64_t table_len, uint64_t marks,
                                      const uint64_t progress[WH_MAX_K])
{
    wh_stepped stepped;
    stepped.number =
        whx_next_step(k, m, l, wh_read_place(table), table == NULL ? 0 : table_len, marks, progress,
                      &stepped.parity, &stepped.source, stepped.progress);
    return stepped;
}

/* ---- Lists of steps -------------------------------------------------------------------------- */

typedef struct {
    uint64_t number;
    uint64_t place; /* from 1, that of the first step that is not bare; with WH_STEPS_EARLY how many
                       steps the list has; else 0 */
} wh_checked;

WH_LOOK_AT_IT
uint64_t whx_check_steps(uint64_t k, uint64_t m, uint64_t l, const uint8_t *table,
                         uint64_t table_len, uint64_t marks, const uint8_t *parities,
                         uint64_t parities_len, const uint8_t *sources, uint64_t sources_len,
                         uint64_t *place);

/* Checks a list of steps from progress 0: for each step a byte of parities, 1 to m, and a byte of
 * sources, 1 to k. Done, the list is an order of steps that finishes all missing sources, whoever
 * wrote it and in whichever order. With WH_STEP_NOT_BARE the place is that of the first step that
 * is not bare, from 1; with WH_STEPS_EARLY it is the length of the list; else it is 0. Lists of any
 * length may be lent; where wh_walk says whole it counts the steps of a right one. WH_PACKET is
 * about the marks only, and WH_STALL does not occur: where the decoding stalls, no list is right.
 * Checks 1 2 3 6 7 22 23 24. */
WH_LOOK_AT_IT WH_READS(4, 5) WH_READS(7, 8) WH_READS(9, 10)
static inline wh_checked wh_check_steps(uint64_t k, uint64_t m, uint64_t l, const uint8_t *table,
                                        uint64_t table_len, uint64_t marks, const uint8_t *parities,
                                        uint64_t parities_len, const uint8_t *sources,
                                        uint64_t sources_len)
{
    wh_checked checked;
    checked.number =
        whx_check_steps(k, m, l, wh_read_place(table), table == NULL ? 0 : table_len, marks,
                        wh_read_place(parities), parities == NULL ? 0 : parities_len,
                        wh_read_place(sources), sources == NULL ? 0 : sources_len, &checked.place);
    return checked;
}

/* ---- Rebuild, packet, look ------------------------------------------------------------------- */

typedef struct {
    uint64_t number;
    uint64_t count; /* steps made */
} wh_rebuilt;

typedef struct {
    uint64_t number;
    uint64_t good;  /* stripes that are written: all when done; with WH_STRAY and WH_FOREIGN those
                       before the first bad one; else 0 */
    uint64_t count; /* steps made, once for all stripes */
} wh_log_rebuilt;

typedef struct {
    uint64_t number;
    uint64_t buffer; /* 0 none, 1 survivors, 2 rebuilt */
    uint64_t start;  /* where the source starts in that buffer */
    uint64_t length; /* its bytes */
} wh_looked;

WH_LOOK_AT_IT
uint64_t whx_rebuild(uint64_t k, uint64_t m, uint64_t l, const uint8_t *table, uint64_t table_len,
                     uint64_t marks, const uint8_t *packets, uint64_t packets_len, uint8_t *out,
                     uint64_t out_len, uint64_t *count);
WH_LOOK_AT_IT
uint64_t whx_rebuild_log(uint64_t k, uint64_t m, uint64_t l, const uint8_t *table,
                         uint64_t table_len, uint64_t stripes, uint64_t marks,
                         const uint8_t *packets, uint64_t packets_len, uint8_t *out,
                         uint64_t out_len, uint64_t *good, uint64_t *count);
WH_LOOK_AT_IT
uint64_t whx_packet(uint64_t k, uint64_t m, uint64_t l, const uint8_t *table, uint64_t table_len,
                    uint64_t marks, const uint8_t *packets, uint64_t packets_len, uint64_t packet,
                    uint8_t *out, uint64_t out_len);
WH_LOOK_AT_IT WH_PLACE(8) WH_PLACE(10)
uint64_t whx_look(uint64_t k, uint64_t m, uint64_t l, const uint8_t *table, uint64_t table_len,
                  uint64_t marks, uint64_t source, const uint8_t *survivors, uint64_t survivors_len,
                  const uint8_t *rebuilt, uint64_t rebuilt_len, uint64_t *buffer, uint64_t *start,
                  uint64_t *length);

/* Writes all k sources, source 1 first, k * l bytes, from the k packets at hand, and gives the
 * steps it took. With WH_STALL the count is the steps made before the stall; with any other
 * refusal it is 0. Checks 1 2 3 6 7 4 5 8 9 10. */
WH_LOOK_AT_IT WH_READS(4, 5) WH_READS(7, 8) WH_WRITES(9, 10)
static inline wh_rebuilt wh_rebuild(uint64_t k, uint64_t m, uint64_t l, const uint8_t *table,
                                    uint64_t table_len, uint64_t marks, const uint8_t *packets,
                                    uint64_t packets_len, uint8_t *out, uint64_t out_len)
{
    wh_rebuilt rebuilt;
    rebuilt.number = whx_rebuild(k, m, l, wh_read_place(table), table == NULL ? 0 : table_len,
                                 marks, wh_read_place(packets), packets == NULL ? 0 : packets_len,
                                 wh_write_place(out), out == NULL ? 0 : out_len, &rebuilt.count);
    return rebuilt;
}

/* Rebuilds a log of up to WH_MAX_STRIPES stripes, stripe after stripe, as wh_rebuild does one. The
 * packets at hand of each stripe, wh_survivors_length bytes, stand behind those of the stripe
 * before it, and so do its sources in the output, k * l bytes: lend stripes times as many of both.
 * All stripes have the same marks, and in what order their bits are uncovered is worked out once.
 * Done, good is the stripes, and the count, which all stripes have in common, is that of one. With
 * WH_STRAY or WH_FOREIGN, which are those of the first bad stripe, good is how many stripes stand
 * before it. Their sources are written; the output from there on, the bad stripe's own place too,
 * keeps its old bytes, and the count is 0. With any other refusal nothing is written and good is 0;
 * with WH_STALL the count is the steps made before the stall, else it is 0. The stripes stand
 * before the marks; no compiler tells the two apart. The call has the missing bits of all stripes
 * on its stack and takes up to 10 KiB of it, where every other call takes at most 2: with less,
 * call wh_rebuild for each stripe. Checks 1 2 3 25 6 7 4 5 8 9 10. */
WH_LOOK_AT_IT WH_READS(4, 5) WH_READS(8, 9) WH_WRITES(10, 11)
static inline wh_log_rebuilt wh_rebuild_log(uint64_t k, uint64_t m, uint64_t l,
                                            const uint8_t *table, uint64_t table_len,
                                            uint64_t stripes, uint64_t marks,
                                            const uint8_t *packets, uint64_t packets_len,
                                            uint8_t *out, uint64_t out_len)
{
    wh_log_rebuilt rebuilt;
    rebuilt.number =
        whx_rebuild_log(k, m, l, wh_read_place(table), table == NULL ? 0 : table_len, stripes,
                        marks, wh_read_place(packets), packets == NULL ? 0 : packets_len,
                        wh_write_place(out), out == NULL ? 0 : out_len, &rebuilt.good,
                        &rebuilt.count);
    return rebuilt;
}

/* Writes any one packet, lost or at hand, from the k packets at hand: wh_packet_length bytes, as it
 * is encoded from the sources that they give. The packets take wh_survivors_length bytes, lowest
 * number first. The marks stand before them, the number of the wanted packet behind them; no
 * compiler tells the two apart. To encode a packet, lend the sources as the packets, with the marks
 * of packets 1 to k: ((uint64_t)1 << k) - 1, once k is known to be at most WH_MAX_K, since C gives
 * no meaning to a shift by 64 or more. Then nothing is decoded, and 7, 8, 9 and 10 do not occur.
 * Where a source is missing all k packets are decoded, for a packet at hand too: 8, 9 and 10 may
 * refuse it because of another card. (wh_look finds a source at hand without that.)
 * Checks 1 2 3 6 7 4 5 8 9 10. */
WH_LOOK_AT_IT WH_READS(4, 5) WH_READS(7, 8) WH_WRITES(10, 11)
static inline uint64_t wh_packet(uint64_t k, uint64_t m, uint64_t l, const uint8_t *table,
                                 uint64_t table_len, uint64_t marks, const uint8_t *packets,
                                 uint64_t packets_len, uint64_t packet, uint8_t *out,
                                 uint64_t out_len)
{
    return whx_packet(k, m, l, wh_read_place(table), table == NULL ? 0 : table_len, marks,
                      wh_read_place(packets), packets == NULL ? 0 : packets_len, packet,
                      wh_write_place(out), out == NULL ? 0 : out_len);
}

/* Finds one source for reading, without a copy: in the survivors' buffer when its card is there,
 * else in the buffer of rebuilt sources. What the buffers hold is not checked. Refused, the part
 * is empty. Checks 1 2 3 6 7 4. */
WH_LOOK_AT_IT WH_READS(4, 5) WH_LENT(8, 9) WH_LENT(10, 11)
static inline wh_looked wh_look(uint64_t k, uint64_t m, uint64_t l, const uint8_t *table,
                                uint64_t table_len, uint64_t marks, uint64_t source,
                                const uint8_t *survivors, uint64_t survivors_len,
                                const uint8_t *rebuilt, uint64_t rebuilt_len)
{
    wh_looked looked;
    looked.number =
        whx_look(k, m, l, wh_read_place(table), table == NULL ? 0 : table_len, marks, source,
                 wh_read_place(survivors), survivors == NULL ? 0 : survivors_len,
                 wh_read_place(rebuilt), rebuilt == NULL ? 0 : rebuilt_len, &looked.buffer,
                 &looked.start, &looked.length);
    return looked;
}

/* The place that wh_look found, as a pointer into one of the same two buffers; NULL when it was
 * refused. */
static inline const uint8_t *wh_look_at(wh_looked looked, const uint8_t *survivors,
                                        const uint8_t *rebuilt)
{
    if (looked.buffer == 1) {
        return survivors + looked.start;
    }
    if (looked.buffer == 2) {
        return rebuilt + looked.start;
    }
    return NULL;
}

/* ---- Blocks ---------------------------------------------------------------------------------- */

typedef struct {
    uint64_t number;
    uint64_t length;   /* information bytes */
    uint64_t sequence; /* N(S); 0 too when refused */
    uint64_t more;     /* M: 1 when the packet goes on in the next block; 0 in the last one, and
                          when refused: look at the number first */
} wh_taken;

typedef struct {
    uint64_t number;
    uint64_t length; /* information bytes of all blocks */
} wh_joined;

typedef struct {
    uint64_t number;
    uint64_t length; /* bytes of all blocks */
} wh_written;

WH_LOOK_AT_IT
uint64_t whx_block(const uint8_t *block, uint64_t block_len, uint8_t *dest, uint64_t dest_len,
                   uint64_t *length, uint64_t *sequence, uint64_t *more);
WH_LOOK_AT_IT
uint64_t whx_read_blocks(const uint8_t *blocks, uint64_t blocks_len, uint8_t *dest,
                         uint64_t dest_len, uint64_t *length);
WH_LOOK_AT_IT
uint64_t whx_write_blocks(const uint8_t *packet, uint64_t packet_len, uint64_t size, uint8_t *dest,
                          uint64_t dest_len, uint64_t *length);

/* Takes one block from a card reader, whose bytes are NAD, PCB, LEN, information, LRC: copies the
 * information to the front of the destination and gives how many bytes those are, and the block's
 * N(S) and M. The rest of the destination keeps its bytes. Where M is set the information is not a
 * whole packet: wh_read_blocks takes all blocks of one. Checks 11 12 13 14 15 16. */
WH_LOOK_AT_IT WH_READS(1, 2) WH_WRITES(3, 4)
static inline wh_taken wh_block(const uint8_t *block, uint64_t block_len, uint8_t *dest,
                                uint64_t dest_len)
{
    wh_taken taken;
    taken.number = whx_block(wh_read_place(block), block == NULL ? 0 : block_len,
                             wh_write_place(dest), dest == NULL ? 0 : dest_len, &taken.length,
                             &taken.sequence, &taken.more);
    return taken;
}

/* Takes a run of blocks, one after another in one buffer, of which blocks_len bytes came: copies
 * the information of all of them, joined in order, to the front of the destination and gives how
 * many bytes those are. The rest of the destination keeps its bytes. A run may have any number of
 * blocks, even blocks without information. 11 to 15, 20 and 21 are checked on each block in turn,
 * before the next is looked at; 16, for the joined bytes, comes last. Refused, nothing has been
 * written, however many of the blocks were sound. Checks 11 12 13 14 15 20 21 16. */
WH_LOOK_AT_IT WH_READS(1, 2) WH_WRITES(3, 4)
static inline wh_joined wh_read_blocks(const uint8_t *blocks, uint64_t blocks_len, uint8_t *dest,
                                       uint64_t dest_len)
{
    wh_joined joined;
    joined.number =
        whx_read_blocks(wh_read_place(blocks), blocks == NULL ? 0 : blocks_len,
                        wh_write_place(dest), dest == NULL ? 0 : dest_len, &joined.length);
    return joined;
}

/* Cuts a packet of at most WH_LONGEST bytes into a run of blocks that wh_read_blocks takes: size
 * bytes of information in each, what is left in the last. An empty packet is one block with none.
 * Writes the blocks to the front of the destination and gives how many bytes they are: those of the
 * packet and 4 for each block, at most WH_BLOCKS_LONGEST. The rest of the destination keeps its
 * bytes. A packet that is NULL is an empty one. Checks 36 4 16. */
WH_LOOK_AT_IT WH_READS(1, 2) WH_WRITES(4, 5)
static inline wh_written wh_write_blocks(const uint8_t *packet, uint64_t packet_len, uint64_t size,
                                         uint8_t *dest, uint64_t dest_len)
{
    wh_written written;
    written.number =
        whx_write_blocks(wh_read_place(packet), packet == NULL ? 0 : packet_len, size,
                         wh_write_place(dest), dest == NULL ? 0 : dest_len, &written.length);
    return written;
}

/* ---- The end --------------------------------------------------------------------------------- */

#ifdef __cplusplus
}
#endif

#endif
