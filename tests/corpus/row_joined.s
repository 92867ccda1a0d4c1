; The 65C02: a jump through a table of addresses, of which one routine branches to the other.
; expect: code 16 of 16, constants as code 0 of 7, halves 0 right 0 wrong, rows 1 right 0 wrong, follows 6 of 6, wrong 0, runs 4 of 4
        .setcpu "65C02"
        .code
        ldx     #$02
        jmp     (table,x)
        .rodata
table:  .addr   one,two
        .byte   $02,$03
        .code
one:    lda     #$01
        inc     a
        bra     two
        .rodata
        .byte   $DB
        .code
two:    lda     #$05
        inc     a
        jmp     exit
        .include "sim65.inc"
