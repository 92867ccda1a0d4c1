; A routine that takes a word behind its call and jumps through it: the words there are addresses, up to the least of them.
; expect: code 36 of 36, constants as code 0 of 4, halves 0 right 0 wrong, rows 1 right 0 wrong, follows 6 of 6, wrong 0, runs 5 of 5
        .code
        lda     #$01
        jsr     jump
        .rodata
words:  .addr   one,two
        .code
one:    lda     #$02
        jmp     exit
two:    lda     #$03
        jmp     exit
jump:   asl     a
        tay
        pla
        sta     $80
        pla
        sta     $81
        iny
        lda     ($80),y
        sta     $82
        iny
        lda     ($80),y
        sta     $83
        jmp     ($0082)
        .include "sim65.inc"
