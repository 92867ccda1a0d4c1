; One high half serves two low halves: the second one is not found.
; expect: code 64 of 64, constants as code 0 of 8, halves 1 right 0 wrong, rows 0 right 0 wrong, follows 8 of 9, wrong 0, runs 0 of 6
; should be: follows 9 of 9
        .code
        ldx     #$FF
        txs
        lda     #<one
        ldx     #>one
        stx     $81
        jsr     print
        lda     #<two
        jsr     print
        jmp     exit
print:  sta     $80
        ldy     #$00
next:   lda     ($80),y
        beq     done
        jsr     putchar
        iny
        bne     next
done:   rts
        .include "sim65.inc"
        .rodata
one:    .byte   "ONE",0
two:    .byte   "TWO",0
