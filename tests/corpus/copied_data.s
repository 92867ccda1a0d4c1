; Bytes that are copied, but never run there: no comment, and the pair beside them follows.
; expect: code 26 of 26, constants as code 0 of 4, halves 1 right 0 wrong, rows 0 right 0 wrong, follows 4 of 4, wrong 0, runs 3 of 3
        .code
        ldx     #$03
next:   lda     table,x
        sta     $0300,x
        dex
        bpl     next
        lda     #<table
        sta     $80
        lda     #>table
        sta     $81
        ldy     #$01
        lda     ($80),y
        jmp     exit
        .include "sim65.inc"
        .rodata
table:  .byte   1,2,3,4
