; Registers of the machine that lie right after the image are none of its variables.
; expect: code 12 of 12, constants as code 0 of 116, halves 0 right 0 wrong, rows 0 right 0 wrong, follows 0 of 0, wrong 0
; start: $CF80
        .code
        lda     #$00
        sta     $D020
        sta     $D021
        inc     $D030
        rts
        .rodata
        .res    116,$EA
