; Code copies words to where jumps lead through, as a system does with its vectors: those are addresses of code.
; expect: code 28 of 28, constants as code 0 of 7, halves 0 right 0 wrong, rows 1 right 0 wrong, follows 6 of 6, wrong 0, runs 5 of 5
        .code
        ldx     #$03
next:   lda     table,x
        sta     $0300,x
        dex
        bpl     next
        jmp     ($0302)
        .include "sim65.inc"
        .rodata
        .byte   $02
table:  .addr   one,two
        .byte   $02
        .code
two:    lda     #$05
        sta     $82
        jmp     ($0300)
        .rodata
        .byte   $02
        .code
one:    lda     $82
        ldx     #$00
        jmp     exit
