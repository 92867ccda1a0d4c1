; The low half of a table's address is an index: the high one is added and stored, `ldy #` loads the low one.
; expect: code 18 of 18, constants as code 0 of 4, halves 1 right 0 wrong, rows 0 right 0 wrong, follows 2 of 2, wrong 0, runs 2 of 2
        .code
        lda     #$02
        sta     $80
        lda     #$00
        clc
        adc     #>table
        sta     $81
        ldy     #<table
        lda     ($80),y
        jmp     exit
        .include "sim65.inc"
        .rodata
table:  .byte   1,2,3,4
