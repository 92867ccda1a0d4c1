; Two bytes after each call of a routine that skips them, which the information file says.
; expect: code 40 of 40, constants as code 0 of 4, halves 0 right 0 wrong, rows 0 right 0 wrong, follows 4 of 4, wrong 0, runs 3 of 3
; info: #: INLINE { ADDR @add; SIZE 2; };
        .code
        jsr     add
        .rodata
        .byte   $03,$04
        .code
        jsr     add
        .rodata
        .byte   $60,$02
        .code
        lda     $82
        jmp     exit
add:    pla
        sta     $80
        pla
        sta     $81
        ldy     #$01
        lda     ($80),y
        clc
        iny
        adc     ($80),y
        sta     $82
        lda     $80
        adc     #$02
        tay
        lda     $81
        adc     #$00
        pha
        tya
        pha
        rts
        .include "sim65.inc"
