; Code in the operand of a bit whose address is used elsewhere, too: both readings matter, and the listing has the bit.
; The comment names the hidden instruction.
; expect: code 28 of 28, constants as code 0 of 0, halves 0 right 0 wrong, rows 0 right 0 wrong, follows 0 of 0, wrong 0, runs 3 of 3
; shows: # no item of its own: @flag+1 @flag+2
        .code
        lda     #$40
        sta     $E8C8
        ldx     #$01
        ldy     #$02
flag:   bit     $E8C8
        bvc     done
        lsr     $E8C8
        bne     flag+1
done:   stx     $80
        tya
        sec
        sbc     $80
        jmp     exit
        .include "sim65.inc"
