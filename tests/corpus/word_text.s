; Two characters of a text in PETSCII are the address of a routine to which nothing leads: they stay a text.
; expect: code 19 of 19, constants as code 0 of 18, halves 0 right 0 wrong, rows 0 right 0 wrong, follows 2 of 2, wrong 0
; start: $2100
; entry: routine
        .code
        ldx     #$00
next:   lda     text,x
        beq     done
        jsr     $FFD2
        inx
        bne     next
done:   rts
        .rodata
text:   .byte   $D4,"HAT IS ",$C1,"LL NOW !",0
        .code
routine:
        lda     #$05
        sta     $80
        rts
