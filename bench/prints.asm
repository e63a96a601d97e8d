; prints.asm: an endless loop over an OUT and a sem_post, so that no two worlds are alike.
        .ORIG x3000
        LEA R0,NAME
        LD R1,CREAT
        AND R2,R2,#0
        TRAP x50         ; sem_open
        ADD R4,R0,#0     ; R4 = slot
LOOP    LD R0,LETTER
        OUT
        ADD R0,R4,#0
        TRAP x55         ; sem_post
        BR LOOP
LETTER  .FILL x61
NAME    .STRINGZ "/s"
CREAT   .FILL x0040      ; O_CREAT
        .END
