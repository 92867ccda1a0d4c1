; A name of the file ends the variables behind the image, since it may be that of a register: a comment asks.
; expect: code 23 of 23, constants as code 0 of 0, halves 0 right 0 wrong, rows 0 right 0 wrong, follows 4 of 12, wrong 0, runs 1 of 2
; shows: # the operands @second to @last stay, since @second second has a name: AFTER { START @first; END @last; }?
; info: LABEL { ADDR @second; NAME "second"; };
        .code
        lda     #$05
        sta     first
        lda     first
        sta     second
        lda     second
        sta     last
        lda     last
        jmp     exit
        .include "sim65.inc"
        .bss
first:  .res    1
second: .res    16
last:   .res    1
