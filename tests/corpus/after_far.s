; Operands from 2,304 bytes behind the image on are rather no variables of it: a question.
; expect: code 17 of 17, constants as code 0 of 0, halves 0 right 0 wrong, rows 0 right 0 wrong, follows 0 of 8, wrong 0, runs 2 of 2
        .code
        lda     #$05
        sta     buffer
        ldx     buffer
        stx     buffer+16
        lda     buffer+16
        jmp     exit
        .include "sim65.inc"
        .bss
        .res    2304
buffer: .res    17
