/* Floating-point numbers passed from function to function, by whatever way the board has for them. */
#include "say.h"

__attribute__((noinline)) static float share(float lost, float cards)
{
    return lost / cards;
}

int main(void)
{
    volatile float lost = 3, cards = 8;
    say_number((uint32_t)(1000 * share(lost, cards)));
    say("\n");
    return 0;
}
