; An index is no low half if another pointer than the one that was stored is used with it.
; expect: code 24 of 24, constants as code 0 of 4, halves 0 right 0 wrong, rows 0 right 0 wrong, follows 0 of 0, wrong 0, runs 2 of 2
        .code
        lda     #$F0
        sta     $82
        lda     #$FF
        sta     $83
        lda     #$00
        clc
        adc     #$10
        sta     $81
        ldy     #$09
        lda     ($82),y
        lda     $81
        jmp     exit
        .include "sim65.inc"
        .rodata
        .byte   1,2,3,4
