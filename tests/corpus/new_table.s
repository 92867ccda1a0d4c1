; The 65C02: a jump through a table of addresses.
; expect: code 17 of 17, constants as code 0 of 7, halves 0 right 0 wrong, rows 1 right 0 wrong, follows 8 of 8, wrong 0, runs 4 of 4
        .setcpu "65C02"
        .code
        ldx     #$02
        jmp     (table,x)
        .rodata
table:  .addr   one,two
        .byte   $02,$03
        .code
one:    lda     #$01
        inc     a
        jmp     two
        .rodata
        .byte   $DB
        .code
two:    lda     #$05
        inc     a
        jmp     exit
        .include "sim65.inc"
