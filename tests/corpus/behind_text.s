; A text right after the end of a routine: as code it has four instructions and a byte that does not decode, so it is none.
; expect: code 50 of 50, constants as code 0 of 10, halves 0 right 0 wrong, rows 0 right 0 wrong, follows 4 of 4, wrong 0, runs 5 of 5
        .code
        ldx     #$FF
        txs
        ldy     #$00
next:   lda     text,y
        beq     done
        jsr     putchar
        iny
        bne     next
done:   lda     #$00
        jmp     exit
        .rodata
text:   .byte   "AIM AHEAD",0
        .code
        .include "sim65.inc"
