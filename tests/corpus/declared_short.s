; A table of the information file that leads to two instructions.
; expect: code 8 of 8, constants as code 0 of 3, halves 0 right 0 wrong, rows 0 right 0 wrong, follows 4 of 4, wrong 0, runs 3 of 3
; info: RANGE { START @table; END @table+1; TYPE AddrTable; };
        .code
        jmp     (table)
        .rodata
table:  .addr   one
        .byte   $02
        .code
one:    lda     #$05
        jmp     exit
        .include "sim65.inc"
