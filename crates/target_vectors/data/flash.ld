SECTIONS
{
  PrgCode 0x20000020 : { *(.text .text.* .rodata .rodata.*) }
  PrgData : { *(.got .got.plt) *(.data .data.*) }
  PrgZero (NOLOAD) : { *(.bss .bss.* COMMON) }
  DevDscr : { *(DevDscr) }
  /DISCARD/ : { *(.ARM.attributes) *(.ARM.exidx*) *(.comment) }
}
