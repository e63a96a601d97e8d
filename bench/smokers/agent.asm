; agent.asm: one of the agents of the cigarette smokers (Patil). Each time the table is free it puts down two ingredients.
; Input: g, and the letters of the ingredients, a to c, as gab.
        .ORIG x3000
        AND R2,R2,#0
        ADD R2,R2,#1     ; the first semaphore, the free table, has the value 1
        LD R3,COUNT
OPEN    GETC
        LEA R1,NAME
        STR R0,R1,#1
        LD R1,CREAT
        LEA R0,NAME
        TRAP x50         ; sem_open: slots 0, 1, 2
        AND R2,R2,#0
        ADD R3,R3,#1
        BRn OPEN
AGAIN   AND R0,R0,#0
        TRAP x53         ; sem_wait: the table is free
        ADD R0,R0,#1
        TRAP x55         ; sem_post: the first ingredient
        ADD R0,R0,#2
        TRAP x55         ; sem_post: the second one
        BR AGAIN
COUNT   .FILL #-3
CREAT   .FILL x0040      ; O_CREAT
NAME    .STRINGZ "/?"
        .END
