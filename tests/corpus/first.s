; Halves of the first address of the image: a program that starts itself again.
; expect: code 24 of 24, constants as code 0 of 1, halves 1 right 0 wrong, rows 0 right 0 wrong, follows 6 of 6, wrong 0, runs 3 of 3
; start: $1003
        .code
start:  inc     count
        lda     count
        cmp     #$03
        beq     done
        lda     #<start
        ldx     #>start
        sta     $80
        stx     $81
        jmp     ($0080)
done:   jmp     exit
        .include "sim65.inc"
        .rodata
count:  .byte   0
