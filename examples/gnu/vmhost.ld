/* For a machine of vmhost with as many pages of memory as the symbol `pages` says: a segment for code at the start of kseg0 and
   one for data after it, and the stack at the end of the memory, of which `stack_size` bytes at least are to be free. Both symbols
   are the command line's (`--defsym`); `build` gives them. The sections that describe the processor are discarded; ld's own script
   puts them into a segment at 00400000, where a machine has no memory.

   A TLB refill enters 80000000, every other exception 80000180. There stand the program's sections .refill and .general,
   if it has them, and behind each a branch to itself, which is all where it has none: so a program that raises an exception
   by mistake stays there. */
OUTPUT_ARCH(mips)
ENTRY(start)

PHDRS
{
  code PT_LOAD FLAGS(5);
  data PT_LOAD FLAGS(6);
}

SECTIONS
{
  . = 0x80000000;
  .vectors : { KEEP(*(.refill)) LONG(0x1000ffff) LONG(0) . = 0x180; KEEP(*(.general)) LONG(0x1000ffff) LONG(0) } :code
  . = 0x80000200;
  .text : { *(.text .text.*) } :code
  .rodata : { *(.rodata .rodata.*) } :code
  . = ALIGN(0x1000);
  .data : { *(.data .data.*) } :data
  .sdata : { *(.sdata .sdata.*) } :data
  . = ALIGN(4);
  bss_start = .;
  .sbss : { *(.sbss .sbss.*) *(.scommon) } :data
  .bss : { *(.bss .bss.*) *(COMMON) } :data
  . = ALIGN(4);
  bss_end = .;
  stack = 0x80000000 + pages * 0x1000;
  /* how many pages the program and its stack ask for */
  pages_needed = (bss_end - 0x80000000 + stack_size + 0xfff) / 0x1000;
  ASSERT(bss_end + stack_size <= stack, "the program and its stack are larger than the memory")
  /DISCARD/ : { *(.MIPS.abiflags) *(.reginfo) *(.gnu.attributes) *(.mdebug*) *(.pdr) *(.comment) *(.note*) *(.eh_frame) }
}
