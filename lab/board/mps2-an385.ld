/* The memory of the mps2-an385. For another board change the two lines. */
MEMORY
{
    CODE (rx) : ORIGIN = 0x00000000, LENGTH = 4M
    RAM (rw) : ORIGIN = 0x20000000, LENGTH = 4M
}

INCLUDE sections.ld
