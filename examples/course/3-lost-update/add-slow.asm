; add-slow.asm: as add.asm, but works for a while between read and write.
; The counter is the one message in the queue /counter.
          .ORIG x3000
          LEA  R0,COUNTER     ; mq_open("/counter", O_CREAT | O_RDWR, none)
          LD   R1,FLAGS
          AND  R2,R2,#0
          TRAP x40
          ADD  R4,R0,#0       ; R4 = descriptor of the counter
          LEA  R0,FINISHED    ; sem_open("/finished", O_CREAT, value 0)
          TRAP x50
          ADD  R5,R0,#0       ; R5 = slot of the semaphore
          JSR  TAKE           ; read the counter: take the message
          JSR  PUT            ;   and put it back
          LD   R6,WORK        ; work for WORK rounds of 131,074 steps
WAIT      ADD  R3,R3,#-1      ; 65,536 times, for 0 less 1 is xFFFF
          BRnp WAIT
          ADD  R6,R6,#-1
          BRp  WAIT
          LD   R6,NUMBER
          ADD  R6,R6,#1       ; R6 = counter + 1
          JSR  TAKE           ; write the counter: take the old message
          ST   R6,NUMBER
          JSR  PUT            ;   and put the new number in its place
          ADD  R0,R5,#0
          TRAP x55            ; sem_post: finished
          HALT
TAKE      ST   R7,RETURN      ; every TRAP overwrites R7
          ADD  R0,R4,#0       ; mq_receive(counter, NUMBER, length 16)
          LEA  R1,NUMBER
          LD   R2,LENGTH
          TRAP x44            ; R3 is 0: the priority is not wanted
          LD   R7,RETURN
          RET
PUT       ST   R7,RETURN
          ADD  R0,R4,#0       ; mq_send(counter, NUMBER, length 1, priority 0)
          LEA  R1,NUMBER
          AND  R2,R2,#0
          ADD  R2,R2,#1
          TRAP x43
          LD   R7,RETURN
          RET
COUNTER   .STRINGZ "/counter"
FINISHED  .STRINGZ "/finished"
FLAGS     .FILL x0042         ; O_CREAT x40 + O_RDWR 2
LENGTH    .FILL 16
WORK      .FILL 20
RETURN    .BLKW 1
NUMBER    .BLKW 16
          .END
