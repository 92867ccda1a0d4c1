; Two loads that are no address: as one they would lie in code, where nothing begins.
; expect: code 16 of 16, constants as code 0 of 1, halves 0 right 0 wrong, rows 0 right 0 wrong, follows 0 of 0, wrong 0, runs 3 of 3
        .code
        ldy     #$08
        ldx     #$10
next:   sty     $80
        inc     $80
        dex
        bne     next
        lda     $80
        jmp     exit
        .include "sim65.inc"
        .rodata
        .byte   1
