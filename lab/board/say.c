#include "say.h"

void say_number(uint64_t number)
{
    char digits[21] = {0};
    size_t at = sizeof digits - 1;
    do {
        digits[--at] = (char)('0' + number % 10);
        number /= 10;
    } while (number > 0);
    say(digits + at);
}

void say_bytes(const uint8_t *bytes, size_t length)
{
    static const char hex[] = "0123456789ABCDEF";
    char word[4] = " ..";
    for (size_t i = 0; i < length; i++) {
        word[1] = hex[bytes[i] >> 4];
        word[2] = hex[bytes[i] & 15];
        say(word);
    }
}
