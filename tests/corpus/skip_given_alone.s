; A byte between code is a range of the file: what stands behind it is code, if it is a sound beginning, though nothing
; else leads there.
; expect: code 14 of 14, constants as code 0 of 0, halves 0 right 0 wrong, rows 0 right 0 wrong, follows 0 of 0, wrong 0, runs 2 of 2
; info: RANGE { START @passed; SIZE 1; TYPE ByteTable; };
        .code
        lda     #$01
        sta     $80
passed: .byte   $EA
        inc     $80
        lda     $80
        eor     #$02
        jmp     exit
        .include "sim65.inc"
