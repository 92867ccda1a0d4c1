; Two words right before the code that they lead to may be so by chance.
; expect: code 5 of 19, constants as code 0 of 11, halves 0 right 0 wrong, rows 0 right 0 wrong, follows 0 of 4, wrong 0, runs 2 of 2
        .code
        lda     #$00
        jmp     exit
        .include "sim65.inc"
        .rodata
        .byte   2,"+!"
        .addr   one
        .code
one:    lda     #$05
        sta     $80
        jmp     exit
        .rodata
        .byte   3,"DUP"
        .addr   two
        .code
two:    lda     $80
        asl     $80
        jmp     exit
