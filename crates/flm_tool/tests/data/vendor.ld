SECTIONS
{
  PrgCode 0 : { *(PrgCode) *(.text .text.* .rodata .rodata.*) }
  PrgData : { *(PrgData) }
  PrgZero (NOLOAD) : { *(PrgZero) }
  DevDscr : { *(DevDscr) }
  /DISCARD/ : { *(.ARM.attributes) *(.ARM.exidx*) *(.comment) *(.data) *(.bss) }
}
