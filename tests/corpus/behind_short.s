; Routines of two and three instructions after the end of another one, which lead on into it: they are too short to be found.
; expect: code 16 of 22, constants as code 0 of 0, halves 0 right 0 wrong, rows 0 right 0 wrong, follows 4 of 4, wrong 0, runs 3 of 3
; should be: code 22 of 22, follows 4 of 4
        .code
        jsr     first
        lda     $80
        jmp     exit
first:  inc     $80
        rts
second: inc     $81
        jmp     first
third:  ldx     #$00
        stx     $80
        beq     first
        .include "sim65.inc"
