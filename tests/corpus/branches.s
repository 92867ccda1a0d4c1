; Code is what jumps, calls and branches lead to, before and after them; nothing leads to what stands between.
; expect: code 17 of 17, constants as code 0 of 4, halves 0 right 0 wrong, rows 0 right 0 wrong, follows 4 of 4, wrong 0, runs 6 of 6
        .code
        jmp     begin
        .rodata
        .byte   $02
        .code
back:   lda     #$03
        bne     done
        .rodata
        .byte   $12
        .code
routine:
        sec
        rts
        .rodata
        .byte   $22
        .code
begin:  jsr     routine
        bcs     back
        .rodata
        .byte   $03
        .code
done:   jmp     exit
        .include "sim65.inc"
