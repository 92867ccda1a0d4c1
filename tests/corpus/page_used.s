; Halves of which the low one is zero, but whose address other code uses: they are an address.
; expect: code 18 of 18, constants as code 0 of 242, halves 1 right 0 wrong, rows 0 right 0 wrong, follows 4 of 4, wrong 0, runs 2 of 2
        .code
        lda     #<page
        ldx     #>page
        sta     $80
        stx     $81
        ldy     #$01
        lda     ($80),y
        lda     page
        jmp     exit
        .include "sim65.inc"
        .rodata
        .res    238,$FF
page:   .byte   1,2,3,4
