; Two words that are addresses of routines are a table of addresses.
; expect: code 42 of 42, constants as code 0 of 5, halves 0 right 0 wrong, rows 1 right 0 wrong, follows 20 of 20, wrong 0, runs 6 of 6
        .code
        jsr     one
        jsr     two
        ldx     #$02
next:   lda     table,x
        sta     $80
        lda     table+1,x
        sta     $81
        jsr     call
        dex
        dex
        bpl     next
        lda     count
        jmp     exit
call:   jmp     ($0080)
        .rodata
table:  .addr   two,one
        .code
one:    inc     count
        rts
        .rodata
count:  .byte   2
        .code
two:    asl     count
        rts
        .include "sim65.inc"
