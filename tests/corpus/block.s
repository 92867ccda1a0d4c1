; A block of parameters whose address code has in halves: its first word is the address of a buffer into which code writes with an index.
; expect: code 34 of 34, constants as code 0 of 8, halves 1 right 0 wrong, rows 1 right 0 wrong, follows 6 of 6, wrong 0, runs 3 of 3
        .code
        ldx     #$03
        lda     #$2A
fill:   sta     buffer,x
        dex
        bpl     fill
        lda     #<block
        sta     $80
        lda     #>block
        sta     $81
        ldy     #$00
        lda     ($80),y
        sta     $82
        iny
        lda     ($80),y
        sta     $83
        lda     ($82),y
        jmp     exit
        .include "sim65.inc"
        .rodata
block:  .addr   buffer
        .byte   4,0
buffer: .byte   1,2,3,4
