; Waits for a message in a queue of its own, named by / and the byte on its console input, into which nobody sends.
        .ORIG x3000
        GETC
        ST R0,LETTER
        LEA R0,NAME
        LD R1,FLAGS
        AND R2,R2,#0
        TRAP x40         ; mq_open, of ten messages of sixteen words
        LEA R1,BUFFER
        LD R2,LENGTH
        AND R3,R3,#0
        TRAP x44         ; mq_receive
        HALT
NAME    .FILL x2F
LETTER  .FILL 0
        .FILL 0
FLAGS   .FILL x0042      ; O_RDWR, O_CREAT
LENGTH  .FILL 16
BUFFER  .BLKW 16
        .END
