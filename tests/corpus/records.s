; Code reads a table of records, each of a letter and the address of a routine: the words stand as far apart as records do.
; expect: code 36 of 36, constants as code 0 of 13, halves 0 right 0 wrong, rows 3 right 0 wrong, follows 10 of 10, wrong 0, runs 5 of 5
        .code
        ldx     #$06
        lda     table+1,x
        sta     $80
        lda     table+2,x
        sta     $81
        jmp     ($0080)
        .include "sim65.inc"
        .rodata
        .byte   $02
table:  .byte   'A'
        .addr   one
        .byte   'B'
        .addr   two
        .byte   'C'
        .addr   three
        .byte   0
        .code
one:    lda     #$05
        sta     $82
        jmp     exit
        .rodata
        .byte   $02
        .code
two:    lda     #$06
        sta     $82
        jmp     exit
        .rodata
        .byte   $02
        .code
three:  lda     #$07
        sta     $82
        jmp     exit
