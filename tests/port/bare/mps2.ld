/* mps2-an385 and mps2-an386: code from address 0 on; in the 16 MiB of PSRAM eight that the memory protection unit guards (memory.c), then all
 * data, the heap and the stack. The emulator loads data where they stand. */
MEMORY
{
    CODE (rx) : ORIGIN = 0x00000000, LENGTH = 4M
    PAGES (rw) : ORIGIN = 0x21000000, LENGTH = 8M
    RAM (rwx) : ORIGIN = 0x21800000, LENGTH = 8M
}

ENTRY(reset)
pages_start = ORIGIN(PAGES);
stack_top = ORIGIN(RAM) + LENGTH(RAM);

SECTIONS
{
    .text :
    {
        KEEP(*(.vectors))
        *(.text*) *(.rodata*)
        init_array_start = .;
        KEEP(*(SORT(.init_array.*))) KEEP(*(.init_array))
        init_array_end = .;
    } >CODE
    .ARM.extab : { *(.ARM.extab*) } >CODE
    .ARM.exidx : { __exidx_start = .; *(.ARM.exidx*) __exidx_end = .; } >CODE
    .data : { *(.data*) } >RAM
    .bss (NOLOAD) : { bss_start = .; *(.bss*) *(COMMON) bss_end = .; } >RAM
    end = .;
}
