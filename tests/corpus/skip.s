; The byte $2C of `bit` hides an instruction of two bytes: both are code. A nop before that one is what it hides then.
; expect: code 20 of 20, constants as code 0 of 0, halves 0 right 0 wrong, rows 0 right 0 wrong, follows 4 of 4, wrong 0, runs 3 of 4
        .code
        jsr     one
        sta     $80
        jsr     two
        clc
        adc     $80
        jmp     exit
one:    lda     #$01
        .byte   $2C
two:    lda     #$02
        rts
        .include "sim65.inc"
