; A call that does not come back: the number after it is for the called routine, and is read as code, as what follows it is.
; expect: code 25 of 25, constants as code 1 of 1, halves 0 right 0 wrong, rows 0 right 0 wrong, follows 2 of 2, wrong 0, runs 3 of 3
        .code
        lda     #$01
        beq     fine
        jsr     error
        .rodata
        .byte   $A5
        .code
fine:   lda     #$00
        jmp     exit
error:  pla
        sta     $80
        pla
        sta     $81
        ldy     #$01
        lda     ($80),y
        jmp     exit
        .include "sim65.inc"
