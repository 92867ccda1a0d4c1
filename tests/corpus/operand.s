; A program that writes to its own operands: they follow as places in an instruction.
; expect: code 23 of 23, constants as code 0 of 3, halves 0 right 0 wrong, rows 0 right 0 wrong, follows 8 of 8, wrong 0, runs 3 of 3
        .code
        ldx     #$03
next:   lda     table
        clc
sum:    adc     #$00
        sta     sum+1
        inc     next+1
        dex
        bne     next
        lda     sum+1
        jmp     exit
        .include "sim65.inc"
        .rodata
table:  .byte   1,2,4
