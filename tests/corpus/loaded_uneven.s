; Words beside one that code loads are none by themselves, if they do not go on in even steps.
; expect: code 17 of 17, constants as code 0 of 15, halves 0 right 0 wrong, rows 1 right 0 wrong, follows 6 of 6, wrong 0, runs 2 of 2
        .code
        lda     table
        sta     $80
        lda     table+1
        sta     $81
        ldy     #$00
        lda     ($80),y
        jmp     exit
        .include "sim65.inc"
        .rodata
        .byte   $02,$03,$02
table:  .addr   one
        .word   $1016,$1020
        .byte   $02,$03,$02
one:    .byte   1,2,3
