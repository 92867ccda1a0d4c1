; Three names, each with the word behind it that is the address of the routine which does that: these are code.
; expect: code 26 of 26, constants as code 0 of 22, halves 0 right 0 wrong, rows 3 right 0 wrong, follows 6 of 6, wrong 0, runs 5 of 5
        .code
        lda     #$00
        jmp     exit
        .include "sim65.inc"
        .rodata
        .byte   $02
        .byte   "help",0
        .addr   one
        .byte   "quit",0
        .addr   two
        .byte   "g",'o'+$80
        .addr   three
        .byte   0
        .code
one:    lda     #$05
        sta     $80
        jmp     exit
        .rodata
        .byte   $02
        .code
two:    lda     $80
        asl     $80
        jmp     exit
        .rodata
        .byte   $02
        .code
three:  inc     $80
        ldx     $80
        jmp     exit
