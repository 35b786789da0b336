/* A serial line in place of semihosting: what the program says goes out on a UART, and no debugger
 * is needed. These are the registers of the first UART of the mps2-an385 and the mps2-an386; for
 * another board change the place, the registers and the clock. */
#include "say.h"

typedef volatile struct {
    uint32_t data, state, control, interrupts, divisor;
} uart_registers;

enum { STATE_FULL = 1, CONTROL_SEND = 1, CLOCK = 25000000, BAUD = 115200 };

static uart_registers *const uart = (uart_registers *)0x40004000;

static void start(void)
{
    if ((uart->control & CONTROL_SEND) == 0) {
        uart->divisor = CLOCK / BAUD;
        uart->control = CONTROL_SEND;
    }
}

static void send(char letter)
{
    while ((uart->state & STATE_FULL) != 0) {
    }
    uart->data = (uint8_t)letter;
}

void say(const char *words)
{
    start();
    for (; *words != 0; words++) {
        send(*words);
    }
}

/* There is nobody to tell the status to: the board stays where it is. */
void leave(int status)
{
    (void)status;
    for (;;) {
        __asm__ volatile("wfi");
    }
}
