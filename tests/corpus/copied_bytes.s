; Bytes that code copies to where no jump leads through are no addresses, though they may lead to code.
; expect: code 17 of 17, constants as code 0 of 3, halves 0 right 0 wrong, rows 0 right 0 wrong, follows 2 of 2, wrong 0, runs 3 of 3
        .code
        ldx     #$01
next:   lda     table,x
        sta     $0300,x
        dex
        bpl     next
        lda     $0301
        jmp     exit
        .include "sim65.inc"
        .rodata
        .byte   $02
table:  .byte   $00,$10
