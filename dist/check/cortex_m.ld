/* The memory of qemu's boards mps2-an385, mps2-an386 and mps2-an500. For mps2-an505 with a Cortex-M33:
 * -Wl,--defsym,code_at=0x10000000,--defsym,data_at=0x38000000 */
MEMORY {
    code (rx) : ORIGIN = DEFINED(code_at) ? code_at : 0, LENGTH = 4M
    data (rw) : ORIGIN = DEFINED(data_at) ? data_at : 0x20000000, LENGTH = 2M
}
ENTRY(_start)
SECTIONS {
    .text : { KEEP(*(.vectors)) *(.text*) KEEP(*(.init)) KEEP(*(.fini)) *(.rodata*) } > code
    .init_array : {
        PROVIDE_HIDDEN(__preinit_array_start = .); KEEP(*(.preinit_array)) PROVIDE_HIDDEN(__preinit_array_end = .);
        PROVIDE_HIDDEN(__init_array_start = .); KEEP(*(.init_array*)) PROVIDE_HIDDEN(__init_array_end = .);
        PROVIDE_HIDDEN(__fini_array_start = .); KEEP(*(.fini_array*)) PROVIDE_HIDDEN(__fini_array_end = .);
    } > code
    .ARM.exidx : { __exidx_start = .; *(.ARM.exidx*) __exidx_end = .; } > code
    /* qemu loads it where it is used. */
    .data : { *(.data*) } > data
    .bss : { __bss_start__ = .; *(.bss*) *(COMMON) __bss_end__ = .; end = .; __end__ = .; } > data
    top_of_stack = ORIGIN(data) + LENGTH(data);
}
