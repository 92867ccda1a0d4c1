; Data right after the end of a routine that decodes, and leads into it: that is taken for code, since nothing tells it apart.
; expect: code 14 of 14, constants as code 7 of 7, halves 0 right 0 wrong, rows 0 right 0 wrong, follows 2 of 2, wrong 0, runs 3 of 4
        .code
        ldx     #$05
        lda     #$00
next:   clc
        adc     data,x
        dex
        bpl     next
        jmp     exit
        .rodata
data:   .byte   $A9,$01,$D0,$F2,$E8,$E8,$60
        .code
        .include "sim65.inc"
