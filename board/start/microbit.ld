/* The memory of the microbit's nRF51822. */
MEMORY
{
    CODE (rx) : ORIGIN = 0x00000000, LENGTH = 256K
    RAM (rw) : ORIGIN = 0x20000000, LENGTH = 16K
}

INCLUDE sections.ld
