; Two loads that are no address: the second is jumped to, with another number in the first register.
; expect: code 29 of 29, constants as code 0 of 0, halves 0 right 0 wrong, rows 0 right 0 wrong, follows 6 of 6, wrong 0, runs 5 of 5
        .code
        jmp     begin
both:   ldx     #$10
second: lda     #$30
        stx     $80
        clc
        adc     $80
        rts
begin:  jsr     both
        sta     $82
        ldx     #$00
        jsr     second
        clc
        adc     $82
        jmp     exit
        .include "sim65.inc"
