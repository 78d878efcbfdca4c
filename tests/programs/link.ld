/* One segment at address 0. The memory of a run is exactly as long as the image file, so the zeros of .bss and
   of the stack have to be in the file: the word at the end makes the whole section one with contents. */
ENTRY(start)

SECTIONS
{
  .image 0 :
  {
    *(.start)
    *(.text .text.*)
    *(.rodata .rodata.* .srodata .srodata.*)
    *(.data .data.* .sdata .sdata.*)
    *(.bss .bss.* .sbss .sbss.* COMMON)
    . = ALIGN(16);
    . += 508;
    LONG(0)
    stack_end = .;
  } =0

  /DISCARD/ : { *(.comment) *(.riscv.attributes) *(.note .note.*) *(.eh_frame) }
}
