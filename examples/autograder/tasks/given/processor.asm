; processor.asm: as processor.asm of the classics, but how many tasks there are is
; the digit of its console input.
          .ORIG x3000
          GETC
          LD   R1,MINUS
          ADD  R6,R0,R1       ; R6 = tasks that aren't done
          LEA  R0,READY       ; mq_open("/ready", O_CREAT | O_RDONLY,
          LD   R1,READ        ;   attributes SIZES)
          LEA  R2,SIZES
          TRAP x40
          ADD  R5,R0,#0       ; R5 = descriptor of /ready
          LEA  R0,OVER        ; sem_open("/over", O_CREAT, value 0)
          LD   R1,CREATE
          AND  R2,R2,#0
          TRAP x50
          ADD  R4,R0,#0       ; R4 = slot of the ends of turns
LOOP      ADD  R0,R5,#0       ; mq_receive(ready,
          LEA  R1,LETTER      ;   LETTER,
          AND  R2,R2,#0
          ADD  R2,R2,#1       ;   length 1, the priority is not wanted)
          TRAP x44            ; waits here while no task is ready
          LD   R0,LETTER
          BRz  DONE
          OUT
          LEA  R3,TURN
          STR  R0,R3,#5       ; write the letter into "/turn?"
          ADD  R0,R3,#0       ; sem_open(TURN, O_CREAT, value 0)
          AND  R3,R3,#0
          LD   R1,CREATE
          AND  R2,R2,#0
          TRAP x50
          TRAP x55            ; sem_post: the turn of this task begins
          ADD  R0,R4,#0
          TRAP x53            ; sem_wait: until it is over
          BR   LOOP
DONE      ADD  R6,R6,#-1
          BRp  LOOP
          HALT
READY     .STRINGZ "/ready"
OVER      .STRINGZ "/over"
TURN      .STRINGZ "/turn?"
READ      .FILL x0040         ; O_CREAT x40 + O_RDONLY 0
CREATE    .FILL x40           ; O_CREAT
MINUS     .FILL x-30
SIZES     .FILL 0             ; flags (ignored by mq_open)
          .FILL 4             ; maxmsg: four messages
          .FILL 1             ; msgsize: one word
          .FILL 0             ; curmsgs (ignored by mq_open)
LETTER    .BLKW 1
          .END
