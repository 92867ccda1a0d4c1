; A library: its routines stand between texts, and only the given entries lead to them.
; expect: code 7 of 7, constants as code 0 of 12, halves 0 right 0 wrong, rows 0 right 0 wrong, follows 0 of 0, wrong 0
; info: #: ENTRY { ADDR @second; };
; entry: third
        .code
        sec
        rts
        .rodata
        .byte   "TWO",0,$02
        .code
second: clc
        rts
        .rodata
        .byte   "THREE",0,$02
        .code
third:  inc     $80
        rts
