; pusher.asm: one of the pushers of the cigarette smokers (Parnas). It sees one ingredient come, and wakes the smoker who
; lacks the third one, or notes that this one has come.
; Input: m; its ingredient; the note of another one and the smoker whom both serve; the same of the third one; its own
; note. As may3z2x.
        .ORIG x3000
        AND R2,R2,#0
        ADD R2,R2,#1     ; the first semaphore, which guards the notes, has the value 1
        LD R3,COUNT
OPEN    GETC
        LEA R1,NAME
        STR R0,R1,#1
        LD R1,CREAT
        LEA R0,NAME
        TRAP x50         ; sem_open: slots 0 to 6
        AND R2,R2,#0
        ADD R3,R3,#1
        BRn OPEN
AGAIN   AND R0,R0,#0
        ADD R0,R0,#1
        TRAP x53         ; sem_wait: its ingredient
        TRAP x53         ; sem_wait: the notes
        ADD R0,R0,#2
        TRAP x54         ; sem_trywait: has the second one come?
        ADD R0,R0,#0
        BRn OTHER
        ADD R0,R0,#3
        BR WAKE
OTHER   AND R0,R0,#0
        ADD R0,R0,#4
        TRAP x54         ; sem_trywait: has the third one come?
        ADD R0,R0,#0
        BRn NOTE
        ADD R0,R0,#5
        BR WAKE
NOTE    AND R0,R0,#0
        ADD R0,R0,#6
WAKE    TRAP x55         ; sem_post: the smoker, or its own note
        TRAP x55         ; sem_post: the notes
        BR AGAIN
COUNT   .FILL #-7
CREAT   .FILL x0040      ; O_CREAT
NAME    .STRINGZ "/?"
        .END
