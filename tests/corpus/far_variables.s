; A variable more than 256 bytes after the one before it, into which the program would grow.
; expect: code 24 of 24, constants as code 0 of 0, halves 0 right 0 wrong, rows 0 right 0 wrong, follows 8 of 8, wrong 0, runs 3 of 3
        .code
        lda     #$05
        sta     last
        ldx     #$00
next:   lda     #$01
        sta     buffer,x
        inx
        bne     next
        inc     last
        lda     last
        jmp     exit
        .include "sim65.inc"
        .bss
buffer: .res    300
last:   .res    1
