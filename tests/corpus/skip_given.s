; A byte that skips an instruction is a range of the file, as an earlier run proposed it, and only halves lead to that
; code: it is code as before.
; expect: code 23 of 23, constants as code 0 of 1, halves 1 right 0 wrong, rows 0 right 0 wrong, follows 2 of 2, wrong 0, runs 4 of 4
; info: RANGE { START @skip; SIZE 1; TYPE ByteTable; };
        .code
        lda     #<routine
        sta     $80
        lda     #>routine
        sta     $81
        jmp     ($0080)
        .rodata
        .byte   $02
        .code
routine:
        lda     $80
        bne     two
        lda     #$01
skip:   .byte   $2C
two:    lda     #$02
        jmp     exit
        .include "sim65.inc"
