; A row of jumps by which others call the routines, behind data. One of them leads to what is no code here.
; expect: code 34 of 37, constants as code 0 of 9, halves 0 right 0 wrong, rows 0 right 0 wrong, follows 10 of 12, wrong 0, runs 5 of 5
        .code
        jsr     first
        lda     $80
        jmp     exit
        .rodata
        .byte   $02,$02
        .code
table:  jmp     first
        jmp     second
        jmp     third
        jmp     fourth
        .rodata
        .byte   $02
        .code
first:  lda     #$03
        sta     $80
        rts
        .rodata
        .byte   $02
        .code
second: inc     $80
        inc     $81
        jmp     third
        .rodata
        .byte   $02
        .code
third:  dec     $80
        dec     $81
        rts
        .rodata
fourth: .byte   $A9,$01,$02,$60
        .include "sim65.inc"
