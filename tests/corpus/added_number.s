; A number is added, half by half, that is also the address of an instruction in the middle of a routine.
; expect: code 20 of 20, constants as code 0 of 0, halves 0 right 0 wrong, rows 0 right 0 wrong, follows 0 of 0, wrong 0, runs 2 of 2
        .code
        lda     #$02
        clc
        adc     #$07
        sta     $80
        lda     #$00
        adc     #$10
        sta     $81
        lda     $80
        eor     $81
        jmp     exit
        .include "sim65.inc"
