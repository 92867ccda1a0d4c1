; A word of data right before a routine reads as an instruction that leads on into it.
; expect: code 20 of 20, constants as code 0 of 2, halves 0 right 0 wrong, rows 1 right 0 wrong, follows 6 of 6, wrong 0, runs 4 of 4
; start: $0229
        .code
start:  jsr     main
        jmp     exit
        rts
early:  lda     #$07
        sta     $80
        jsr     main
        rts
        .rodata
        .addr   early
        .code
main:   lda     #$05
        sta     $81
        rts
        .include "sim65.inc"
