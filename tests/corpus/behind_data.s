; Data right after the end of a routine that decodes, but leads to `brk`.
; expect: code 14 of 14, constants as code 0 of 7, halves 0 right 0 wrong, rows 0 right 0 wrong, follows 2 of 2, wrong 0, runs 3 of 3
        .code
        ldx     #$05
        lda     #$00
next:   clc
        adc     data,x
        dex
        bpl     next
        jmp     exit
        .rodata
data:   .byte   $A9,$01,$A2,$02,$E8,$CA,$00
        .code
        .include "sim65.inc"
