; smoker.asm: one of the cigarette smokers. Each time both ingredients are there that it lacks, it frees the table.
; Input: g, and its number, 1 to 3, as g1.
        .ORIG x3000
        AND R2,R2,#0
        ADD R2,R2,#1     ; the first semaphore, the free table, has the value 1
        LD R3,COUNT
OPEN    GETC
        LEA R1,NAME
        STR R0,R1,#1
        LD R1,CREAT
        LEA R0,NAME
        TRAP x50         ; sem_open: slots 0 and 1
        AND R2,R2,#0
        ADD R3,R3,#1
        BRn OPEN
AGAIN   AND R0,R0,#0
        ADD R0,R0,#1
        TRAP x53         ; sem_wait: its turn
        TRAP x55         ; sem_post: the table is free
        BR AGAIN
COUNT   .FILL #-2
CREAT   .FILL x0040      ; O_CREAT
NAME    .STRINGZ "/?"
        .END
