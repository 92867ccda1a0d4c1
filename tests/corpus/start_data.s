; A program that begins with data, and whose entry is given: the first address is no entry, since it does not read as code.
; expect: code 5 of 5, constants as code 0 of 3, halves 0 right 0 wrong, rows 0 right 0 wrong, follows 0 of 0, wrong 0
; entry: main
        .rodata
        .byte   $AA,$AA,$00
        .code
main:   lda     #$05
        sta     $80
        rts
