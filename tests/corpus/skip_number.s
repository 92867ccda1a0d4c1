; The opcode of a load or a comparison with a number hides an instruction of one byte: both are code. A nop before
; that one is what it hides then.
; expect: code 26 of 26, constants as code 0 of 0, halves 0 right 0 wrong, rows 0 right 0 wrong, follows 6 of 6, wrong 0, runs 3 of 5
; shows: RANGE { START @first; SIZE 1; TYPE ByteTable; }; # skips @down
; shows: RANGE { START @second; SIZE 1; TYPE ByteTable; }; # skips @other
        .code
        ldx     #$03
        jsr     both
        jsr     down
        jsr     other
        txa
        jmp     exit
both:   inx
first:  .byte   $C9
down:   dex
        cpx     #$02
        beq     other
        inx
second: .byte   $A9
other:  dex
        rts
        .include "sim65.inc"
