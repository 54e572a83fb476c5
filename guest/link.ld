/* A static program: code and constants from 0x10000 on, and what is written from the next page on. */

ENTRY(_start)

PHDRS
{
    code PT_LOAD FLAGS(5);
    data PT_LOAD FLAGS(6);
    own PT_TLS FLAGS(4);
}

SECTIONS
{
    . = 0x10000;
    .text : { *(.text.start) *(.text .text.*) } :code
    .rodata : { *(.rodata .rodata.* .srodata .srodata.*) } :code
    /* What the C library runs before and behind main. */
    .init_array : {
        PROVIDE_HIDDEN(__preinit_array_start = .);
        KEEP(*(.preinit_array))
        PROVIDE_HIDDEN(__preinit_array_end = .);
        PROVIDE_HIDDEN(__init_array_start = .);
        KEEP(*(SORT_BY_INIT_PRIORITY(.init_array.*) .init_array))
        PROVIDE_HIDDEN(__init_array_end = .);
    } :code
    .fini_array : {
        PROVIDE_HIDDEN(__fini_array_start = .);
        KEEP(*(SORT_BY_INIT_PRIORITY(.fini_array.*) .fini_array))
        PROVIDE_HIDDEN(__fini_array_end = .);
    } :code

    . = ALIGN(4096);
    __global_pointer$ = . + 0x800;
    /* What has its cache lines to itself, whatever their size up to 256 bytes. */
    .alone : { *(.alone .alone.*) . = ALIGN(256); } :data
    /* What each hart has for itself, as it is at first: start.S copies it to the stack. */
    .tdata : ALIGN(256) { *(.tdata .tdata.*) . = ALIGN(4); } :data :own
    .tbss : ALIGN(4) { *(.tbss .tbss.*) . = ALIGN(4); } :data :own
    .data : { *(.data .data.* .sdata .sdata.*) } :data
    .bss (NOLOAD) : { *(.sbss .sbss.* .bss .bss.* COMMON) } :data

    __own_image = ADDR(.tdata);
    __own_filled = SIZEOF(.tdata);
    __own_size = SIZEOF(.tbss) > 0 ? ADDR(.tbss) + SIZEOF(.tbss) - ADDR(.tdata) : SIZEOF(.tdata);

    /DISCARD/ : { *(.comment) *(.note .note.*) *(.eh_frame .eh_frame_hdr) }
}
