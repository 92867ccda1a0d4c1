; Three words at one distance that are where texts of any length begin, each right behind a zero byte, are addresses.
; expect: code 19 of 19, constants as code 0 of 16, halves 0 right 0 wrong, rows 3 right 0 wrong, follows 10 of 10, wrong 0, runs 2 of 2
        .code
        ldy     #$03
        lda     table+1,y
        sta     $80
        lda     table+2,y
        sta     $81
        ldy     #$00
        lda     ($80),y
        jmp     exit
        .include "sim65.inc"
        .rodata
table:  .byte   7
        .addr   one
        .byte   8
        .addr   two
        .byte   9
        .addr   three
        .byte   0
one:    .byte   "N",0
two:    .byte   "S",0
three:  .byte   "E",0
