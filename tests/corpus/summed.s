; An address to which a number is added, half by half, each half loaded before its sum.
; expect: code 28 of 28, constants as code 0 of 4, halves 1 right 0 wrong, rows 0 right 0 wrong, follows 2 of 2, wrong 0, runs 2 of 2
        .code
        ldx     #$02
        stx     $82
        ldx     #$00
        stx     $83
        lda     #<table
        ldy     #$00
        clc
        adc     $82
        sta     $80
        lda     #>table
        adc     $83
        sta     $81
        lda     ($80),y
        jmp     exit
        .include "sim65.inc"
        .rodata
table:  .byte   1,2,3,4
