/* Start-up of a Cortex-M: the table that the processor reads first, and what runs before main. */
#include "say.h"

extern uint8_t data_start[], data_end[], data_kept[], bss_start[], bss_end[];
void stack_top(void); /* no function, a place: sections.ld has it and those above */
void reset(void);
int main(void);

/* Lets the program use the floating-point registers, where it is compiled for them: they are off
 * when the processor starts. */
static void turn_on_floating_point(void)
{
#ifdef __ARM_FP
    volatile uint32_t *const coprocessors = (volatile uint32_t *)0xE000ED88;
    *coprocessors |= 0xFu << 20;
    __asm__ volatile("dsb\nisb" : : : "memory");
#endif
}

void reset(void)
{
    turn_on_floating_point();
    const uint8_t *from = data_kept;
    for (uint8_t *to = data_start; to != data_end; to++) {
        *to = *from++;
    }
    for (uint8_t *to = bss_start; to != bss_end; to++) {
        *to = 0;
    }
    leave(main());
}

static void fault(void)
{
    say("fault\n");
    leave(3);
}

typedef void entry(void);

__attribute__((section(".vectors"), used)) static entry *const vectors[16] = {
    stack_top, reset, fault, fault, fault, fault, fault, fault,
    fault,     fault, fault, fault, fault, fault, fault, fault};
