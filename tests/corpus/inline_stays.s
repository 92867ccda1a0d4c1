; A routine that pulls its return address and reads up to a zero byte, but does not go on there, has no texts behind calls.
; expect: code 27 of 27, constants as code 0 of 0, halves 0 right 0 wrong, rows 0 right 0 wrong, follows 2 of 2, wrong 0, runs 5 of 5
        .code
        jsr     first
        lda     #$00
        jmp     exit
first:  pla
        sta     $80
        pla
        sta     $81
        ldy     #$01
next:   lda     ($80),y
        beq     done
        iny
        bne     next
done:   tya
        jmp     exit
        .include "sim65.inc"
