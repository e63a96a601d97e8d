; low-ceiling.asm: as low.asm, but while it has the lock its priority is 3, that of
; the most urgent task that may want the lock.
          .ORIG x3000
          LEA  R0,TURN        ; sem_open("/turnL", O_CREAT, value 0)
          LD   R1,CREATE
          AND  R2,R2,#0
          TRAP x50
          ADD  R4,R0,#0       ; R4 = slot of my turns
          LEA  R0,OVER        ; sem_open("/over", O_CREAT, value 0)
          TRAP x50
          ADD  R5,R0,#0       ; R5 = slot of the ends of turns
          LEA  R0,WANTED      ; sem_open("/wanted", O_CREAT, value 0)
          TRAP x50
          ST   R0,WAITS
          LEA  R0,LOCK        ; sem_open("/lock", O_CREAT, value 1)
          ADD  R2,R2,#1
          TRAP x50
          ADD  R6,R0,#0       ; R6 = slot of the lock
          LEA  R0,READY       ; mq_open("/ready", O_CREAT | O_WRONLY,
          LD   R1,WRITE       ;   attributes SIZES)
          LEA  R2,SIZES
          TRAP x40
          ST   R0,QUEUE
          AND  R2,R2,#0
          ADD  R2,R2,#1       ; R2 = 1: length of all messages
          LD   R3,LOW         ; R3 = my priority
          LEA  R1,MINE
          LD   R0,QUEUE
          TRAP x43            ; mq_send(ready, MINE, length 1, priority R3)
          ADD  R0,R4,#0
          TRAP x53            ; sem_wait: until it is my turn
          ADD  R0,R6,#0
          TRAP x53            ; sem_wait: take the lock
          LD   R3,SECOND      ; R3 = my priority while I have the lock
          LD   R0,QUEUE
          TRAP x43            ; mq_send(ready, MINE, length 1, priority R3)
          ADD  R0,R5,#0
          TRAP x55            ; sem_post: my turn is over
          ADD  R0,R4,#0
          TRAP x53            ; sem_wait: until it is my turn again
          ADD  R0,R6,#0
          TRAP x55            ; sem_post: give the lock back
          LD   R0,WAITS
          TRAP x54            ; sem_trywait: does H want it?
          ADD  R0,R0,#0
          BRn  NONE
          LEA  R1,HIGHS       ; yes: H is ready again
          LD   R3,HIGH
          LD   R0,QUEUE
          TRAP x43            ; mq_send(ready, HIGHS, length 1, priority 3)
NONE      LEA  R1,NULL        ; I am done
          AND  R3,R3,#0
          LD   R0,QUEUE
          TRAP x43            ; mq_send(ready, NULL, length 1, priority 0)
          ADD  R0,R5,#0
          TRAP x55            ; sem_post: my turn is over
          HALT
TURN      .STRINGZ "/turnL"
OVER      .STRINGZ "/over"
WANTED    .STRINGZ "/wanted"
LOCK      .STRINGZ "/lock"
READY     .STRINGZ "/ready"
CREATE    .FILL x40           ; O_CREAT
WRITE     .FILL x0041         ; O_CREAT x40 + O_WRONLY 1
SIZES     .FILL 0             ; as the processor has them
          .FILL 4
          .FILL 1
          .FILL 0
MINE      .FILL x4C           ; character 'L'
HIGHS     .FILL x48           ; character 'H'
NULL      .FILL 0
LOW       .FILL 1             ; my priority
SECOND    .FILL 3             ; my priority while I have the lock
HIGH      .FILL 3             ; the priority of H
QUEUE     .BLKW 1
WAITS     .BLKW 1
          .END
