; What stands right after `brk` is looked at as well.
; expect: code 16 of 16, constants as code 0 of 0, halves 0 right 0 wrong, rows 0 right 0 wrong, follows 2 of 2, wrong 0, runs 3 of 3
        .code
        lda     #$01
        beq     trap
        jmp     exit
trap:   brk
other:  lda     #$01
        sta     $80
        inx
        jmp     trap
        .include "sim65.inc"
