/* The Cortex-M3 of mps2-an385: code from 0 on, and as much memory as MEMORY says, 64 KB if nothing is said. */
MEMORY_SIZE = DEFINED(MEMORY_SIZE) ? MEMORY_SIZE : 64K;
ENTRY(start)
SECTIONS
{
    . = 0;
    .text : { KEEP(*(.vectors)) *(.text*) *(.rodata*) *(.ARM.ex*) . = ALIGN(8); values = .; }
    . = 0x20000000;
    .data : AT(values) { values_start = .; *(.data*) . = ALIGN(8); values_end = .; }
    .bss (NOLOAD) : { variables_start = .; *(.bss*) *(COMMON) . = ALIGN(8); variables_end = .; }
    memory_end = 0x20000000 + MEMORY_SIZE;
    ASSERT(variables_end + 8K < memory_end, "the variables leave too little for the stack")
}
