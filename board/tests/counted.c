/* Counts the instructions of encode all, of the last parity alone, of rebuild, and of a log of
 * four stripes beside four rebuilds. QEMU with `-icount shift=0` lets time go on by the same
 * amount with each instruction; a loop of known length says how many a tick has. */
#include "semihosting.h"
#include "windhawker.h"

enum { LOOPS = 500000, REPEATS = 8, STRIPES = 4 };

#ifdef __riscv
enum { TICKS_MOST = -1 };

static void start_ticks(void)
{
}

static uint32_t ticks(void)
{
    uint32_t now;
    __asm__ volatile(".option push\n.option arch, +zicsr\ncsrr %0, minstret\n.option pop"
                     : "=r"(now));
    return now;
}
#else
/* SysTick: 24 bits, counting down with the processor's clock. */
enum { TICKS_MOST = 0xFFFFFF };

static volatile uint32_t *const systick = (volatile uint32_t *)0xE000E010;

static void start_ticks(void)
{
    systick[1] = TICKS_MOST;
    systick[2] = 0;
    systick[0] = 5;
}

static uint32_t ticks(void)
{
    return TICKS_MOST - systick[2];
}
#endif

/* Two instructions, this many times. */
static void loop(uint32_t times)
{
#ifdef __riscv
    __asm__ volatile("1: addi %0, %0, -1\nbnez %0, 1b" : "+r"(times));
#else
    __asm__ volatile(".syntax unified\n1: subs %0, %0, #1\nbne 1b" : "+l"(times) : : "cc");
#endif
}

static uint64_t ticks_of_loops;

static uint64_t ticks_since(uint32_t began)
{
    return (ticks() - began) & (uint32_t)TICKS_MOST;
}

static uint64_t instructions_since(uint32_t began)
{
    return ticks_since(began) * 2 * LOOPS / ticks_of_loops;
}

typedef struct {
    uint64_t k, m, l;
} shape;

static uint8_t table[WH_MAX_K * WH_MAX_M];
static uint8_t sources[WH_MAX_K * WH_MAX_LENGTH], rebuilt_sources[WH_MAX_K * WH_MAX_LENGTH];
static uint8_t parities[WH_MAX_M * WH_LONGEST], packets[WH_MAX_K * WH_LONGEST];

static void say_count(const char *name, const shape *s, uint64_t count)
{
    say(name);
    const uint64_t numbers[] = {s->k, s->m, s->l, count};
    for (int i = 0; i < 4; i++) {
        say(" ");
        say_number(numbers[i]);
    }
    say("\n");
}

static void count_encode_all(const shape *s, size_t cells, size_t all)
{
    uint64_t number = WH_DONE;
    uint32_t began = ticks();
    for (int i = 0; i < REPEATS; i++) {
        number |= wh_encode_all(s->k, s->m, s->l, table, cells, sources, (size_t)(s->k * s->l),
                                parities, all);
    }
    uint64_t count = instructions_since(began) / REPEATS;
    say_count(number == WH_DONE ? "encode_all" : "refused", s, count);
}

/* The packet of the highest number, encoded from the sources. */
static void count_last_parity(const shape *s, size_t cells)
{
    uint64_t number = WH_DONE, marks = ((uint64_t)1 << s->k) - 1, last = s->k + s->m;
    wh_measured packet = wh_packet_length(s->k, s->m, s->l, table, cells, last);
    if (packet.number != WH_DONE) {
        say_count("refused", s, packet.number);
        return;
    }
    uint32_t began = ticks();
    for (int i = 0; i < REPEATS; i++) {
        number |= wh_packet(s->k, s->m, s->l, table, cells, marks, sources, (size_t)(s->k * s->l),
                            last, packets, (size_t)packet.length);
    }
    uint64_t count = instructions_since(began) / REPEATS;
    say_count(number == WH_DONE ? "last_parity" : "refused", s, count);
}

/* As many sources lost as there are parities for. Those at hand stand before the first so many
 * parities. */
static void count_rebuild(const shape *s, size_t cells)
{
    size_t lost = (size_t)(s->k < s->m ? s->k : s->m), kept = (size_t)s->k - lost, used = 0;
    uint64_t marks = 0;
    wh_rebuilt rebuilt = {0, 0};
    for (size_t i = lost; i < (size_t)s->k + lost; i++) {
        marks |= (uint64_t)1 << i;
    }
    wh_measured at_hand = wh_survivors_length(s->k, s->m, s->l, table, cells, marks);
    if (at_hand.number != WH_DONE) {
        say_count("refused", s, at_hand.number);
        return;
    }
    for (size_t i = 0; i < kept * (size_t)s->l; i++) {
        packets[used++] = sources[lost * (size_t)s->l + i];
    }
    for (size_t i = 0; used < (size_t)at_hand.length; i++) {
        packets[used++] = parities[i];
    }
    uint32_t began = ticks();
    for (int i = 0; i < REPEATS; i++) {
        rebuilt = wh_rebuild(s->k, s->m, s->l, table, cells, marks, packets, used, rebuilt_sources,
                             (size_t)(s->k * s->l));
    }
    uint64_t count = instructions_since(began) / REPEATS;
    say_count(rebuilt.number == WH_DONE ? "rebuild" : "refused", s, count);
}

/* Writes the packets at hand of all stripes; gives the bytes of one, or 0 where a call refuses. */
static size_t write_log(const shape *s, size_t cells, uint64_t marks)
{
    uint64_t number = WH_DONE, every_source = ((uint64_t)1 << s->k) - 1;
    size_t stripe = (size_t)(s->k * s->l), used = 0;
    for (size_t t = 0; t < STRIPES; t++) {
        for (uint64_t packet = 1; packet <= s->k + s->m; packet++) {
            if (marks >> (packet - 1) & 1) {
                wh_measured one = wh_packet_length(s->k, s->m, s->l, table, cells, packet);
                number |= one.number;
                number |=
                    wh_packet(s->k, s->m, s->l, table, cells, every_source, sources + t * stripe,
                              stripe, packet, packets + used, (size_t)one.length);
                used += (size_t)one.length;
            }
        }
    }
    return number == WH_DONE ? used / STRIPES : 0;
}

/* A log in one call, and with one rebuild for each stripe, house table, these packets at hand. */
static void count_log(const shape *s, uint64_t marks)
{
    size_t cells = (size_t)(s->k * s->m), stripe = (size_t)(s->k * s->l);
    uint64_t number = wh_family_table(s->k, s->m, WH_HOUSE, table, cells);
    size_t each = write_log(s, cells, marks);
    uint32_t began = ticks();
    for (int i = 0; i < REPEATS; i++) {
        number |= wh_rebuild_log(s->k, s->m, s->l, table, cells, STRIPES, marks, packets,
                                 STRIPES * each, rebuilt_sources, STRIPES * stripe)
                      .number;
    }
    uint64_t count = instructions_since(began) / REPEATS;
    say_count(number == WH_DONE ? "rebuild_log" : "refused", s, count);
    began = ticks();
    for (size_t i = 0; i < REPEATS * STRIPES; i++) {
        size_t t = i % STRIPES;
        number |= wh_rebuild(s->k, s->m, s->l, table, cells, marks, packets + t * each, each,
                             rebuilt_sources + t * stripe, stripe)
                      .number;
    }
    count = instructions_since(began) / REPEATS;
    say_count(number == WH_DONE ? "rebuilds" : "refused", s, count);
}

int main(void)
{
    static const shape shapes[] = {{2, 2, 8}, {4, 2, 32}, {WH_MAX_K, WH_MAX_M, WH_MAX_LENGTH}};
    start_ticks();
    uint32_t began = ticks();
    loop(LOOPS);
    ticks_of_loops = ticks_since(began);
    for (size_t i = 0; i < sizeof sources; i++) {
        sources[i] = (uint8_t)(i * 151 + 7);
    }
    for (int i = 0; i < 3; i++) {
        const shape *s = &shapes[i];
        size_t cells = (size_t)(s->k * s->m);
        uint64_t number = wh_family_table(s->k, s->m, WH_HOUSE, table, cells);
        wh_measured all = wh_parities_length(s->k, s->m, s->l, table, cells);
        if (number != WH_DONE || all.number != WH_DONE) {
            say_count("refused", s, number != WH_DONE ? number : all.number);
            return 1;
        }
        count_encode_all(s, cells, (size_t)all.length);
        count_last_parity(s, cells);
        count_rebuild(s, cells);
    }
    static const shape two_missing = {4, 2, 8}, three_missing = {4, 4, 8};
    count_log(&two_missing, 0x3C);   /* sources 1 and 2: solved for at once */
    count_log(&three_missing, 0xB4); /* sources 1, 2 and 4, by parities 1, 2 and 4: in steps */
    return 0;
}
