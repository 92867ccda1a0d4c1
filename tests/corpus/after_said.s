; The file says that a name behind the image is one of its variables: so are the operands behind it.
; expect: code 23 of 23, constants as code 0 of 0, halves 0 right 0 wrong, rows 0 right 0 wrong, follows 12 of 12, wrong 0, runs 2 of 2
; info: LABEL { ADDR @second; NAME "second"; };
; info: #: AFTER { START @first; END @last; };
        .code
        lda     #$05
        sta     first
        lda     first
        sta     second
        lda     second
        sta     last
        lda     last
        jmp     exit
        .include "sim65.inc"
        .bss
first:  .res    1
second: .res    16
last:   .res    1
