; The 65C02: bra ends a path, bit branches lead to both sides.
; expect: code 21 of 21, constants as code 0 of 2, halves 0 right 0 wrong, rows 0 right 0 wrong, follows 0 of 0, wrong 0
        .setcpu "65C02"
        .code
        stz     $80
        bra     begin
        .rodata
        .byte   $FF,$FF
        .code
back:   lda     $80
        rts
begin:  inc     $80
        bbr2    $80,begin
        bbs0    $80,after
        bra     back
after:  stz     $80
        bra     back
