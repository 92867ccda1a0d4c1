; Variables right after the image get labels, and their place is said.
; expect: code 25 of 25, constants as code 0 of 0, halves 0 right 0 wrong, rows 0 right 0 wrong, follows 10 of 10, wrong 0, runs 3 of 3
        .code
        ldx     #$0F
        lda     #$00
        sta     count
next:   inc     count
        lda     count
        sta     buffer,x
        dex
        bpl     next
        lda     buffer+3
        jmp     exit
        .include "sim65.inc"
        .bss
count:  .res    1
buffer: .res    16
