; Two loads that are no address: a number to store, and how often. As an address they are that of the image.
; expect: code 14 of 14, constants as code 0 of 0, halves 0 right 0 wrong, rows 0 right 0 wrong, follows 0 of 0, wrong 0, runs 3 of 3
        .code
        lda     #$00
        ldx     #$10
next:   sta     $80,x
        dex
        bpl     next
        lda     $81
        jmp     exit
        .include "sim65.inc"
