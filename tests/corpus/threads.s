; A thread begins behind a word that leads to code. Numbers and addresses of its own words may stand in it.
; expect: code 107 of 107, constants as code 0 of 30, halves 1 right 0 wrong, rows 7 right 0 wrong, follows 40 of 40, wrong 0, runs 9 of 9
        .zeropage
work:   .res    2
place:  .res    2
        .code
        lda     #<cold
        sta     place
        lda     #>cold
        sta     place+1
next:   ldy     #$00
        lda     (place),y
        sta     work
        iny
        lda     (place),y
        sta     work+1
        clc
        lda     place
        adc     #$02
        sta     place
        bcc     enter
        inc     place+1
enter:  ldy     #$00
        lda     (work),y
        sta     target
        iny
        lda     (work),y
        sta     target+1
        jmp     (target)
docol:  lda     place+1
        pha
        lda     place
        pha
        clc
        lda     work
        adc     #$02
        sta     place
        lda     work+1
        adc     #$00
        sta     place+1
        jmp     next
        .include "sim65.inc"
        .rodata
target: .word   0
return: .addr   returns
        .code
returns:
        pla
        sta     place
        pla
        sta     place+1
        jmp     next
        .rodata
skip:   .addr   skips
        .code
skips:  clc
        lda     place
        adc     #$02
        sta     place
        jmp     next
        .rodata
branch: .addr   branches
        .code
branches:
        ldy     #$00
        lda     (place),y
        tax
        iny
        lda     (place),y
        sta     place+1
        stx     place
        jmp     next
        .rodata
stop:   .addr   stops
        .code
stops:  lda     #$00
        jmp     exit
        .rodata
main:   .addr   docol,skip,$0105,branch,there,skip,$0102
there:  .addr   return
cold:   .addr   main,stop
