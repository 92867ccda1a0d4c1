; What stands right after the end of a routine is code, if it looks like it, though nothing leads there.
; expect: code 19 of 19, constants as code 0 of 0, halves 0 right 0 wrong, rows 0 right 0 wrong, follows 4 of 4, wrong 0, runs 3 of 3
        .code
        jsr     first
        lda     $80
        jmp     exit
first:  inc     $80
        rts
second: lda     #$01
        sta     $80
        inx
        jmp     first
        .include "sim65.inc"
