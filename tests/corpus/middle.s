; A jump into the middle of an instruction, whose operand is one too.
; expect: code 16 of 16, constants as code 0 of 0, halves 0 right 0 wrong, rows 0 right 0 wrong, follows 4 of 4, wrong 0, runs 3 of 3
        .code
        lda     #$05
        jsr     flag+1
        jsr     flag
        jmp     exit
flag:   cpx     #$18
        adc     #$01
        rts
        .include "sim65.inc"
