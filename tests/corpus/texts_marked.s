; Texts of any length may end with a marked letter: three words that are where they begin are addresses.
; expect: code 19 of 19, constants as code 0 of 16, halves 0 right 0 wrong, rows 1 right 0 wrong, follows 10 of 10, wrong 0, runs 2 of 2
        .code
        ldy     #$02
        lda     table,y
        sta     $80
        lda     table+1,y
        sta     $81
        ldy     #$00
        lda     ($80),y
        jmp     exit
        .include "sim65.inc"
        .rodata
        .byte   2
table:  .addr   one,two,three
        .byte   "X",'Y'+$80
one:    .byte   "IF",'N'+$80
two:    .byte   "G",'O'+$80
three:  .byte   "T",'O'+$80
