; Halves that code stores to a pointer are an address: what it jumps to is code, and gets a label.
; expect: code 22 of 22, constants as code 0 of 2, halves 1 right 0 wrong, rows 0 right 0 wrong, follows 2 of 2, wrong 0, runs 3 of 3
        .code
        lda     #<handler
        sta     $80
        lda     #>handler
        sta     $81
        jmp     ($0080)
        .rodata
        .byte   $02,$03
        .code
handler:
        lda     #$01
        sta     $82
        inc     $82
        lda     $82
        jmp     exit
        .include "sim65.inc"
