; Words in a row that are addresses of texts, which code reads through a pointer.
; expect: code 59 of 59, constants as code 0 of 17, halves 0 right 0 wrong, rows 1 right 0 wrong, follows 10 of 10, wrong 0, runs 5 of 5
        .code
        ldx     #$FF
        txs
        ldx     #$02
        lda     names,x
        sta     $80
        lda     names+1,x
        sta     $81
        ldy     #$00
next:   lda     ($80),y
        beq     done
        jsr     putchar
        iny
        bne     next
done:   jmp     exit
        .include "sim65.inc"
        .rodata
names:  .addr   one,two
one:    .byte   "FIRST",0
two:    .byte   "SECOND",0
