; A number to which another one is added is no address, though it could be one.
; expect: code 26 of 26, constants as code 0 of 48, halves 0 right 1 wrong, rows 0 right 0 wrong, follows 0 of 0, wrong 2, runs 0 of 2
        .code
        ldx     #$02
        stx     $82
        ldx     #$00
        stx     $83
        lda     #$30
        clc
        adc     $82
        sta     $80
        lda     #$10
        adc     $83
        sta     $81
        lda     $80
        jmp     exit
        .include "sim65.inc"
        .rodata
table:  .res    48,1
