; A ROM: the vectors at $FFFA to $FFFF lead to code, and are a table of addresses.
; expect: code 7 of 7, constants as code 0 of 121, halves 0 right 0 wrong, rows 1 right 0 wrong, follows 8 of 8, wrong 0
; start: $FF80
; shows: RANGE { START $FFFA; END $FFFF; TYPE AddrTable; }; # ......
        .rodata
        .byte   "MONITOR",0
        .code
reset:  inx
        jmp     reset
nmi:    rti
        .rodata
        .byte   $02
        .code
irq:    pla
        rti
        .segment "VECTORS"
        .addr   nmi,reset,irq
