; A branch that is always taken: the text after it is read as code.
; expect: code 14 of 14, constants as code 6 of 6, halves 0 right 0 wrong, rows 0 right 0 wrong, follows 4 of 4, wrong 0, runs 5 of 5
; should be: constants as code 0 of 6
        .code
        ldx     #$00
        beq     begin
        .rodata
text:   .byte   "HELLO",0
        .code
begin:  lda     text,x
        clc
        adc     text+1,x
        jmp     exit
        .include "sim65.inc"
