/* A part of the memory of QEMU's RISC-V machine virt, as large as a small board's. */
MEMORY
{
    CODE (rx) : ORIGIN = 0x80000000, LENGTH = 256K
    RAM (rw) : ORIGIN = 0x80100000, LENGTH = 64K
}

INCLUDE sections.ld
