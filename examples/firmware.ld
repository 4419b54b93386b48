/* Linker script for firmware of the board: everything that is loaded lies from 0x80000000 on, where RAM begins.
 *
 *   mips-linux-gnu-as -EB -mips32 -o firmware.o examples/firmware.s
 *   mips-linux-gnu-ld -EB -n -T examples/firmware.ld -o firmware.elf firmware.o
 *
 * With -EL in the place of -EB the file is little-endian. RAM is 16 MiB at most; LENGTH is what the configuration's BOARD line gives. docs/ELF.md says which files load.
 */
OUTPUT_FORMAT("elf32-tradbigmips", "elf32-tradbigmips", "elf32-tradlittlemips")
OUTPUT_ARCH(mips)
ENTRY(_start)

MEMORY
{
  ram (rwx) : ORIGIN = 0x80000000, LENGTH = 16M
}

SECTIONS
{
  .text : { *(.text.start) *(.text .text.*) } > ram
  .rodata : { *(.rodata .rodata.*) } > ram
  .data : { *(.data .data.*) *(.sdata .sdata.*) } > ram
  .bss (NOLOAD) : { *(.sbss .sbss.*) *(.bss .bss.*) *(COMMON) } > ram
  /DISCARD/ : { *(.pdr) *(.comment) *(.gnu.attributes) }
}
