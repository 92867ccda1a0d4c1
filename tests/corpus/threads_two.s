; Two words behind one that leads to code, each the address of a word that leads to code: they may be numbers.
; expect: code 26 of 26, constants as code 0 of 29, halves 0 right 0 wrong, rows 3 right 0 wrong, follows 6 of 6, wrong 0, runs 5 of 5
        .code
        lda     #$00
        jmp     exit
        .include "sim65.inc"
        .rodata
        .byte   2,"+!"
one:    .addr   one+2
        .code
        lda     #$05
        sta     $80
        jmp     exit
        .rodata
        .byte   3,"DUP"
two:    .addr   two+2
        .code
        lda     $80
        asl     $80
        jmp     exit
        .rodata
        .byte   7,"EXECUTE"
three:  .addr   three+2
        .code
        inc     $80
        ldx     $80
        jmp     exit
        .rodata
        .byte   3
        .word   $1017,$1008,$1015
        .byte   3
