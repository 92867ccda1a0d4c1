; Two tables, one right behind the other, of halves that code loads into two registers: all entries are addresses.
; expect: code 19 of 19, constants as code 0 of 10, halves 0 right 0 wrong, rows 0 right 0 wrong, follows 10 of 10, wrong 0, runs 2 of 2
        .code
        ldx     #$02
        lda     lows,x
        ldy     highs,x
        sta     $80
        sty     $81
        ldy     #$00
        lda     ($80),y
        jmp     exit
        .include "sim65.inc"
        .rodata
        .byte   $02
lows:   .lobytes one,two,three
highs:  .hibytes one,two,three
one:    .byte   3
two:    .byte   4
three:  .byte   5
