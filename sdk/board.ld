/* Linker script of the board: everything that is loaded lies from 0x80000000 on, where RAM begins. start.S gives the
 * size of RAM, and of the stacks and memory pools that the board lays from the end of RAM down. */
OUTPUT_FORMAT("elf32-tradbigmips", "elf32-tradbigmips", "elf32-tradlittlemips")
OUTPUT_ARCH(mips)

MEMORY
{
  ram (rwx) : ORIGIN = 0x80000000, LENGTH = 16M
}

SECTIONS
{
  .text : { *(.text.start) *(.text .text.*) } > ram
  .rodata : { *(.rodata .rodata.*) } > ram
  .constructors : { *(.ctors .ctors.* .init_array .init_array.* .preinit_array .preinit_array.*) } > ram
  .data : { *(.data .data.*) *(.sdata .sdata.*) } > ram
  .bss (NOLOAD) : { *(.sbss .sbss.*) *(.bss .bss.*) *(COMMON) *(.noinit .noinit.*) } > ram

  /* Sections of other names are put after those that they are like. So the end is a section too, and like none. */
  .end (NOLOAD) : { board_end = .; . = .; } > ram
  _end = board_end;
  /DISCARD/ : { *(.reginfo) *(.MIPS.abiflags) *(.pdr) *(.comment) *(.eh_frame) *(.note.*) }
  /* GDB takes the addresses in this for 64 bits without a sign, and its own for such with one; it needs none. */
  /DISCARD/ : { *(.debug_aranges) }
}

ASSERT(_end + board_areas <= ORIGIN(ram) + board_ram, "the program, its stacks and memory pools don't fit into RAM")
ASSERT(SIZEOF(.constructors) == 0, "nobody calls constructors here: call these functions from a task")
