; Records with addresses of texts, and numbers beside them that lead to various places of records: they stay numbers.
; expect: code 6 of 6, constants as code 0 of 36, halves 0 right 0 wrong, rows 3 right 0 wrong, follows 8 of 8, wrong 0, runs 2 of 2
        .code
        ldx     records
        jmp     exit
        .include "sim65.inc"
        .rodata
records: .addr  hall
        .word   $100E
        .byte   1
        .addr   cave
        .word   $1011
        .byte   2
        .addr   lake
        .word   0
        .byte   3
hall:   .byte   "A HALL",0
cave:   .byte   "A CAVE",0
lake:   .byte   "A LAKE",0
