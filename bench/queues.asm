; A loop of an mq_send and an mq_receive of one word with ten instructions beside them.
        .ORIG x3000
        LEA R0,NAME
        LD R1,FLAGS
        AND R2,R2,#0
        TRAP x40         ; mq_open, of ten messages of sixteen words
        ADD R4,R0,#0     ; R4 = descriptor
LOOP    ADD R0,R4,#0
        LEA R1,BUFFER
        AND R2,R2,#0
        ADD R2,R2,#1
        AND R3,R3,#0
        TRAP x43         ; mq_send
        ADD R0,R4,#0
        LEA R1,BUFFER
        LD R2,LENGTH
        AND R3,R3,#0
        TRAP x44         ; mq_receive
        BR LOOP
NAME    .STRINGZ "/q"
FLAGS   .FILL x0042      ; O_RDWR, O_CREAT
LENGTH  .FILL 16
BUFFER  .BLKW 16
        .END
