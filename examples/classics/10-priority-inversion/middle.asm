; middle.asm: the task M, priority 2. It has two turns, and doesn't want the lock.
; In each it prints a point, or an exclamation mark if H, which is more urgent,
; waits for the lock meanwhile.
          .ORIG x3000
          LEA  R0,TURN        ; sem_open("/turnM", O_CREAT, value 0)
          LD   R1,CREATE
          AND  R2,R2,#0
          TRAP x50
          ADD  R4,R0,#0       ; R4 = slot of my turns
          LEA  R0,OVER        ; sem_open("/over", O_CREAT, value 0)
          TRAP x50
          ADD  R5,R0,#0       ; R5 = slot of the ends of turns
          LEA  R0,WANTED      ; sem_open("/wanted", O_CREAT, value 0)
          TRAP x50
          ST   R0,WAITS
          LEA  R0,READY       ; mq_open("/ready", O_CREAT | O_WRONLY,
          LD   R1,WRITE       ;   attributes SIZES)
          LEA  R2,SIZES
          TRAP x40
          ST   R0,QUEUE
          AND  R2,R2,#0
          ADD  R2,R2,#1       ; R2 = 1: length of all messages
          LD   R3,MIDDLE      ; R3 = my priority
          AND  R6,R6,#0
          ADD  R6,R6,#2       ; R6 = 2: turns that are left
          LD   R0,QUEUE
          LEA  R1,MINE
          TRAP x43            ; mq_send(ready, MINE, length 1, priority 2)
LOOP      ADD  R0,R4,#0
          TRAP x53            ; sem_wait: until it is my turn
          LD   R0,WAITS
          LEA  R1,VALUE
          TRAP x56            ; sem_getvalue(wanted, VALUE): does H wait?
          LD   R0,POINT
          LD   R1,VALUE
          BRz  CALM
          LD   R0,MARK
CALM      OUT
          LEA  R1,MINE
          ADD  R6,R6,#-1
          BRp  AGAIN
          LEA  R1,NULL        ; I am done: send NULL with priority 0
          AND  R3,R3,#0
AGAIN     LD   R0,QUEUE
          TRAP x43            ; mq_send(ready, MINE or NULL, length 1, priority R3)
          ADD  R0,R5,#0
          TRAP x55            ; sem_post: my turn is over
          ADD  R6,R6,#0
          BRp  LOOP
          HALT
TURN      .STRINGZ "/turnM"
OVER      .STRINGZ "/over"
WANTED    .STRINGZ "/wanted"
READY     .STRINGZ "/ready"
CREATE    .FILL x40           ; O_CREAT
WRITE     .FILL x0041         ; O_CREAT x40 + O_WRONLY 1
SIZES     .FILL 0             ; as the processor has them
          .FILL 4
          .FILL 1
          .FILL 0
MINE      .FILL x4D           ; character 'M'
NULL      .FILL 0
MIDDLE    .FILL 2             ; my priority
POINT     .FILL x2E           ; character '.'
MARK      .FILL x21           ; character '!'
QUEUE     .BLKW 1
WAITS     .BLKW 1
VALUE     .BLKW 1
          .END
