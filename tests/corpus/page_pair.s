; The halves $00 and $10 are two numbers. At $1000 an instruction ends within the first one of a routine.
; expect: code 16 of 17, constants as code 0 of 0, halves 0 right 0 wrong, rows 0 right 0 wrong, follows 2 of 2, wrong 0, runs 3 of 3
; start: $0FFE
        .code
        jmp     main
        .res    1,$EA
main:   lda     #$00
        ldx     #$10
        sta     $80
        stx     $81
        lda     $81
        jmp     exit
        .include "sim65.inc"
