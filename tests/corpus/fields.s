; Threaded code, as of Forth: the word right before the code of a routine is its address. Three of them lead to code.
; expect: code 26 of 26, constants as code 0 of 21, halves 0 right 0 wrong, rows 3 right 0 wrong, follows 6 of 6, wrong 0, runs 5 of 5
        .code
        lda     #$00
        jmp     exit
        .include "sim65.inc"
        .rodata
        .byte   2,"+!"
        .addr   one
        .code
one:    lda     #$05
        sta     $80
        jmp     exit
        .rodata
        .byte   3,"DUP"
        .addr   two
        .code
two:    lda     $80
        asl     $80
        jmp     exit
        .rodata
        .byte   7,"EXECUTE"
        .addr   three
        .code
three:  inc     $80
        ldx     $80
        jmp     exit
