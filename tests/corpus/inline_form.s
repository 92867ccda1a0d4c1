; A routine that pulls its return address, reads up to a zero byte and goes on there has texts behind its calls.
; expect: code 81 of 81, constants as code 0 of 12, halves 0 right 0 wrong, rows 0 right 0 wrong, follows 6 of 6, wrong 0, runs 8 of 8
; shows: #: INLINE { ADDR @print; };
        .code
        ldx     #$FF
        txs
        jsr     print
        .rodata
        .byte   "HI THERE",0
        .code
        jsr     print
        .rodata
        .byte   "X",$0A,0
        .code
        lda     #$03
        jmp     exit
print:  pla
        tax
        pla
        sta     $81
        stx     $80
        ldy     #$01
next:   lda     ($80),y
        beq     done
        jsr     putchar
        iny
        bne     next
done:   tya
        clc
        adc     $80
        sta     $80
        bcc     same
        inc     $81
same:   inc     $80
        bne     back
        inc     $81
back:   jmp     ($0080)
        .include "sim65.inc"
