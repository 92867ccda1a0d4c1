; Two records are no table of records: only the first word counts, as the first one of a table that code reads.
; expect: code 22 of 29, constants as code 0 of 9, halves 0 right 0 wrong, rows 1 right 0 wrong, follows 6 of 8, wrong 0, runs 1 of 3
        .code
        ldx     #$03
        lda     table+1,x
        sta     $80
        lda     table+2,x
        sta     $81
        jmp     ($0080)
        .include "sim65.inc"
        .rodata
        .byte   $02
table:  .byte   $42
        .addr   one
        .byte   $42
        .addr   two
        .byte   $02
        .code
one:    lda     #$05
        sta     $82
        jmp     exit
        .rodata
        .byte   $02
        .code
two:    lda     #$06
        sta     $82
        jmp     exit
