#define _POSIX_C_SOURCE 200809L

#include "errand.h"

#include "check.h"

#include <fcntl.h>
#include <signal.h>
#include <stdbool.h>
#include <stdio.h>
#include <stdlib.h>
#include <string.h>
#include <unistd.h>

static int to_board = -1, from_board = -1;
static uint64_t deepest[CALLS];

/* The deepest stack of each call, a line each, for those who want to know. */
static void write_deepest(void)
{
    static const char *const names[CALLS] = {
        "family_table", "judge",  "packet_length", "parities_length", "survivors_length",
        "encode_all",   "walk",   "next_step",     "check_steps",     "rebuild",
        "rebuild_log",  "packet", "look",          "block",           "read_blocks",
        "write_blocks"};
    FILE *file = fopen("deepest", "a");
    for (int i = 0; file != NULL && i < CALLS; i++) {
        if (deepest[i] > 0) {
            fprintf(file, "whx_%s %u\n", names[i], (unsigned)deepest[i]);
        }
    }
}

static void open_pipes(void)
{
    if (to_board < 0) {
        signal(SIGPIPE, SIG_IGN);
        to_board = open("asked", O_WRONLY);
        from_board = open("answered", O_RDONLY);
        atexit(write_deepest);
    }
}

static void receive(void *to, size_t length)
{
    for (uint8_t *at = to; length > 0;) {
        ssize_t got = read(from_board, at, length);
        if (got <= 0) {
            fail("the board has stopped");
        }
        at += got;
        length -= (size_t)got;
    }
}

errand new_errand(call_number call, uint64_t k, uint64_t m, uint64_t l)
{
    errand e;
    memset(&e, 0, sizeof e);
    e.words.call = call;
    e.words.k = k;
    e.words.m = m;
    e.words.l = l;
    return e;
}

void lend_input(errand *e, int buffer, const uint8_t *at, uint64_t length)
{
    e->inputs[buffer] = at;
    e->words.lengths[buffer] = length;
}

void lend_output(errand *e, uint8_t *at, uint64_t length)
{
    e->output = at;
    lend_input(e, OUTPUT, at, length);
}

/* The bytes of all buffers, one after another; gives how many. */
static size_t gather(const errand *e, uint8_t *bytes)
{
    size_t length = 0;
    for (int i = 0; i < BUFFERS; i++) {
        size_t sent = bytes_sent(e->words.lengths[i]);
        if (sent > BUFFER_MOST) {
            fail("a buffer is too long to send");
        }
        if (sent > 0) {
            memcpy(bytes + length, e->inputs[i], sent);
        }
        length += sent;
    }
    return length;
}

static bool margin_kept(const uint8_t *at)
{
    for (size_t i = 0; i < MARGIN; i++) {
        if (at[i] != MARGIN_BYTE) {
            return false;
        }
    }
    return true;
}

/* One message each way. On the board nothing but the output may have changed. */
answered_message run(const errand *e)
{
    uint8_t message[sizeof e->words + BYTES_ASKED], back[BYTES_ANSWERED];
    uint8_t *sent = message + sizeof e->words;
    size_t length = gather(e, sent), output_length = bytes_sent(e->words.lengths[OUTPUT]);
    answered_message answered;
    open_pipes();
    memcpy(message, &e->words, sizeof e->words);
    if (write(to_board, message, sizeof e->words + length) != (ssize_t)(sizeof e->words + length)) {
        fail("the board has stopped");
    }
    receive(&answered, sizeof answered);
    receive(back, length + 2 * MARGIN);
    if (!margin_kept(back) || !margin_kept(back + MARGIN + length) ||
        memcmp(back + MARGIN, sent, length - output_length) != 0) {
        fail("on the board more than the output has changed");
    }
    if (output_length > 0) {
        memcpy(e->output, back + MARGIN + length - output_length, output_length);
    }
    if (answered.stack > deepest[e->words.call]) {
        deepest[e->words.call] = answered.stack;
    }
    return answered;
}
