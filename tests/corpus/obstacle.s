; Bytes behind the call of a routine keep others from being code: what stops reading there is said, and that something follows the call.
; expect: code 7 of 31, constants as code 0 of 3, halves 0 right 0 wrong, rows 0 right 0 wrong, follows 0 of 0, wrong 0, runs 2 of 2
; shows: # what follows 1 of 1 calls of $BF00 does not decode: INLINE { ADDR $BF00; SIZE 3; }, of ProDOS?
; shows: # the undefined opcode at @text keeps 19 bytes from being code
        .code
        lda     #$00
        sta     $80
        jmp     exit
        .code
quit:   lda     #$01
        sta     $80
        lda     #$02
        sta     $81
        lda     #$03
        sta     $82
        inc     $83
        inc     $84
        jsr     $BF00
        .rodata
text:   .byte   $02,$65,$00
        .code
        lda     #$00
        sta     $80
        rts
        .include "sim65.inc"
