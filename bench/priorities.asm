; A queue is filled with 1,024 messages of one word, each at the priority behind the last one's, and emptied, again and
; again. With a STEP of 0 all have priority 0. One round is 11,270 steps: for each message two calls with nine instructions
; beside them, and six more.
        .ORIG x3000
        LEA R0,NAME
        LD R1,FLAGS
        LEA R2,SIZES
        TRAP x40         ; mq_open
        ADD R6,R0,#0     ; R6 = descriptor
        AND R2,R2,#0
        ADD R2,R2,#1     ; R2 = the length of a message
FILL    AND R3,R3,#0     ; R3 = the priority
        LD R4,MESSAGES
        LD R5,STEP
SEND    ADD R0,R6,#0
        LEA R1,WORD
        TRAP x43         ; mq_send
        ADD R3,R3,R5
        ADD R4,R4,#-1
        BRp SEND
        LD R4,MESSAGES
        AND R3,R3,#0     ; the priority is not wanted
TAKE    ADD R0,R6,#0
        LEA R1,WORD
        TRAP x44         ; mq_receive
        ADD R4,R4,#-1
        BRp TAKE
        BR FILL
NAME    .STRINGZ "/q"
FLAGS   .FILL x0042      ; O_RDWR, O_CREAT
SIZES   .FILL 0
        .FILL 1024       ; mq_maxmsg
        .FILL 1          ; mq_msgsize
        .FILL 0
MESSAGES .FILL 1024
STEP    .FILL 1
WORD    .FILL 7
        .END
