; Zeros into which the program writes, and filler that nothing uses.
; expect: code 20 of 20, constants as code 0 of 63, halves 0 right 0 wrong, rows 0 right 0 wrong, follows 4 of 4, wrong 0, runs 4 of 4
; shows: # room? 20 bytes at @cells, but @write writes there
; shows: # room? 16 bytes at @counted, but @read reads there
; shows: # room: 24 bytes at @filler
        .code
        ldx     #$13
next:   txa
write:  sta     cells,x
        dex
        bpl     next
        ldx     #$10
read:   lda     counted-1,x
        dex
        bne     read
        jmp     exit
        .include "sim65.inc"
        .rodata
cells:  .res    20
        .byte   $01
counted:
        .res    16
        .byte   $02,$01
filler: .res    24,$FF
