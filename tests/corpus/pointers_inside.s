; A table of addresses of texts whose own address code has in halves: one of three may be that of the last characters of another text.
; expect: code 26 of 26, constants as code 0 of 22, halves 1 right 0 wrong, rows 1 right 0 wrong, follows 8 of 8, wrong 0, runs 2 of 2
        .code
        lda     #<names
        sta     $80
        lda     #>names
        sta     $81
        ldy     #$02
        lda     ($80),y
        sta     $82
        iny
        lda     ($80),y
        sta     $83
        ldy     #$00
        lda     ($82),y
        jmp     exit
        .include "sim65.inc"
        .rodata
names:  .addr   none,stone+2,two
        .byte   0
stone:  .byte   "stone",0
none:   .byte   "none",0
two:    .byte   "two",0
