; Two names with words behind them lead to no code: the words may be numbers.
; expect: code 5 of 19, constants as code 0 of 17, halves 0 right 0 wrong, rows 0 right 0 wrong, follows 0 of 4, wrong 0, runs 2 of 2
        .code
        lda     #$00
        jmp     exit
        .include "sim65.inc"
        .rodata
        .byte   $02
        .byte   "help",0
        .addr   one
        .byte   "quit",0
        .addr   two
        .byte   0
        .code
one:    lda     #$05
        sta     $80
        jmp     exit
        .rodata
        .byte   $02
        .code
two:    lda     $80
        asl     $80
        jmp     exit
