; A row of jumps right after the end of a routine, for others to call: each is a piece by itself.
; expect: code 30 of 30, constants as code 0 of 0, halves 0 right 0 wrong, rows 0 right 0 wrong, follows 10 of 10, wrong 0, runs 5 of 5
        .code
        jsr     first
        lda     $80
        jmp     exit
first:  lda     #$03
        sta     $80
        rts
        jmp     first
        jmp     second
        jmp     third
second: inc     $80
        jmp     third
third:  dec     $80
        rts
        .include "sim65.inc"
