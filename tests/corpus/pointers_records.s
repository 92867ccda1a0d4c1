; Records with addresses of texts, which code reads in its own way: in three of them at the same distance the words are addresses.
; expect: code 19 of 19, constants as code 0 of 31, halves 0 right 0 wrong, rows 3 right 0 wrong, follows 10 of 10, wrong 0, runs 2 of 2
        .code
        ldx     #$05
        ldy     records+1,x
        lda     records+2,x
        sty     $80
        sta     $81
        ldy     #$00
        lda     ($80),y
        jmp     exit
        .include "sim65.inc"
        .rodata
records: .byte  1
        .addr   first
        .byte   0,2
        .addr   second
        .byte   0,3
        .addr   third
        .byte   0
first:  .byte   "FIRST",0
second: .byte   "SECOND",0
third:  .byte   "THIRD",0
