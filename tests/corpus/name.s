; A name right before code is no code, though all of it decodes and goes on into a routine.
; expect: code 135 of 135, constants as code 0 of 8, halves 0 right 0 wrong, rows 0 right 0 wrong, follows 6 of 6, wrong 0, runs 6 of 6
        .code
        ldx     #$FF
        txs
        ldy     #$00
next:   lda     name,y
        beq     done
        jsr     putchar
        iny
        bne     next
done:   jmp     after
        .rodata
name:   .byte   "EXAMPLE",0
        .code
after:  ldx     #$50
        .repeat 80
        nop
        .endrepeat
        lda     #$07
        jmp     exit
        .include "sim65.inc"
