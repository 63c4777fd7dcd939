SECTIONS
{
  PrgCode 0 : { *(PrgCode) }
  DevDscr : { *(DevDscr) }
  /DISCARD/ : { *(.ARM.attributes) *(.text) *(.data) *(.bss) }
}
