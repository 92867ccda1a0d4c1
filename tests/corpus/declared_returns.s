; A table of return addresses of the information file leads to code as well.
; expect: code 15 of 15, constants as code 0 of 3, halves 0 right 0 wrong, rows 0 right 0 wrong, follows 6 of 6, wrong 0, runs 3 of 3
; info: RANGE { START @table; END @table+1; TYPE RtsTable; };
        .code
        lda     table+1
        pha
        lda     table
        pha
        rts
        .rodata
table:  .addr   one-1
        .byte   $02
        .code
one:    lda     #$05
        asl     a
        jmp     exit
        .include "sim65.inc"
