; Three words that are where texts begin: one stands right behind a byte that is none, and the others are short.
; expect: code 20 of 20, constants as code 0 of 17, halves 0 right 0 wrong, rows 1 right 0 wrong, follows 10 of 10, wrong 0, runs 2 of 2
        .code
        ldx     #$02
        lda     table,x
        sta     $80
        inx
        ldy     table,x
        sty     $81
        ldy     #$00
        lda     ($80),y
        jmp     exit
        .include "sim65.inc"
        .rodata
        .byte   7
one:    .byte   "NORTH",0
two:    .byte   "S",0
three:  .byte   "E",0
table:  .addr   one,two,three
