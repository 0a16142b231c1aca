/* Memory as on a small controller: 64 KiB from address 0 on for vectors, code and constants, and 32 KiB of RAM. mps2-an385 and mps2-an386
 * have more of both at these addresses. Nothing that is lent to the library may stand at address 0: there stand the vectors. */
MEMORY
{
    FLASH (rx) : ORIGIN = 0x00000000, LENGTH = 64K
    RAM (rw) : ORIGIN = 0x20000000, LENGTH = 32K
}

/* lp586x_update takes the most of what this firmware calls: README.md, "Targets", has its stack. The rest is for main, the bus and interrupts. */
stack_size = 4K;
stack_top = ORIGIN(RAM) + LENGTH(RAM);

ENTRY(reset)

SECTIONS
{
    .text :
    {
        KEEP(*(.vectors))
        *(.text*) *(.rodata*)
        . = ALIGN(4);
    } >FLASH
    .ARM.exidx : { *(.ARM.exidx*) } >FLASH
    .data :
    {
        data_start = .;
        *(.data*)
        . = ALIGN(4);
        data_end = .;
    } >RAM AT>FLASH
    data_load = LOADADDR(.data);
    .bss (NOLOAD) :
    {
        bss_start = .;
        *(.bss*) *(COMMON)
        . = ALIGN(4);
        bss_end = .;
    } >RAM
    ASSERT(bss_end + stack_size <= stack_top, "no room for the stack")
}
