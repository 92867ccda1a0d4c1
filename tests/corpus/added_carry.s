; An address to which a number is added: the high half is loaded, and the carry added to it.
; expect: code 20 of 20, constants as code 0 of 4, halves 1 right 0 wrong, rows 0 right 0 wrong, follows 2 of 2, wrong 0, runs 2 of 2
        .code
        lda     #$01
        asl     a
        adc     #<table
        sta     $80
        lda     #>table
        adc     #$00
        sta     $81
        ldy     #$00
        lda     ($80),y
        jmp     exit
        .include "sim65.inc"
        .rodata
table:  .byte   1,2,3,4
