; Halves of which the low one is zero, and whose address nothing else has: they are only likely an address.
; expect: code 17 of 17, constants as code 0 of 243, halves 0 right 0 wrong, rows 0 right 0 wrong, follows 0 of 2, wrong 0, runs 2 of 2
; shows: # the bytes at $1001 and $1003 are @page: HALVES?
        .code
        lda     #<page
        ldx     #>page
        sta     $80
        stx     $81
        ldy     #$01
        lda     ($80),y
        lda     $82
        jmp     exit
        .include "sim65.inc"
        .rodata
        .res    239,$FF
page:   .byte   1,2,3,4
