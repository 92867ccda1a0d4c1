; Two tables that code loads into two registers are no halves if one entry is no address of the image.
; expect: code 17 of 17, constants as code 0 of 7, halves 0 right 0 wrong, rows 0 right 0 wrong, follows 4 of 4, wrong 0, runs 2 of 2
        .code
        ldx     #$02
        lda     one,x
        ldy     two,x
        sta     $80
        sty     $81
        lda     $80
        jmp     exit
        .include "sim65.inc"
        .rodata
        .byte   $02
one:    .byte   3,4,5
two:    .byte   $10,$20,$10
