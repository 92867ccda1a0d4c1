; The 65C02: data that decodes, with a bit branch out of the image, is no code.
; expect: code 3 of 3, constants as code 0 of 8, halves 0 right 0 wrong, rows 0 right 0 wrong, follows 0 of 0, wrong 0, runs 2 of 2
        .setcpu "65C02"
        .code
        jmp     exit
        .rodata
        .byte   $A9,$01,$8F,$80,$70,$E8,$CA,$60
        .code
        .include "sim65.inc"
