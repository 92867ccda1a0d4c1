; Words beside one that code loads are addresses, if they go on in even steps, as those of records do.
; expect: code 17 of 17, constants as code 0 of 21, halves 0 right 0 wrong, rows 1 right 0 wrong, follows 10 of 10, wrong 0, runs 2 of 2
        .code
        lda     table+2
        sta     $80
        lda     table+3
        sta     $81
        ldy     #$00
        lda     ($80),y
        jmp     exit
        .include "sim65.inc"
        .rodata
        .byte   $02,$03,$02
table:  .addr   one,two,three
        .byte   $02,$03,$02
one:    .byte   1,2,3
two:    .byte   4,5,6
three:  .byte   7,8,9
