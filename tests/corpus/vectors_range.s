; A ROM, of whose vectors a range of the information file has a byte: the two others are a table.
; expect: code 7 of 7, constants as code 0 of 121, halves 0 right 0 wrong, rows 1 right 0 wrong, follows 6 of 8, wrong 0
; start: $FF80
; info: RANGE { START $FFFA; END $FFFA; TYPE ByteTable; };
; shows: RANGE { START $FFFC; END $FFFF; TYPE AddrTable; }; # ....
        .code
reset:  inx
        jmp     reset
nmi:    rti
irq:    pla
        rti
        .segment "VECTORS"
        .addr   nmi,reset,irq
