; A loop of a sem_wait and a sem_post with three instructions beside them.
        .ORIG x3000
        LEA R0,NAME
        LD R1,CREAT
        AND R2,R2,#0
        ADD R2,R2,#1
        TRAP x50         ; sem_open, of value 1
        ADD R4,R0,#0     ; R4 = slot
LOOP    ADD R0,R4,#0
        TRAP x53         ; sem_wait
        ADD R0,R4,#0
        TRAP x55         ; sem_post
        BR LOOP
NAME    .STRINGZ "/s"
CREAT   .FILL x0040      ; O_CREAT
        .END
