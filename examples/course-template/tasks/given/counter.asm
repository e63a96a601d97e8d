; counter.asm: makes the counter /counter with the first digit of its console
; input, waits for as many adders as the second one says, then prints the counter.
          .ORIG x3000
          GETC                ; R0 = the first value as a character
          LD   R1,MINUS
          ADD  R0,R0,R1
          ST   R0,NUMBER
          GETC                ; R0 = the number of adders as a character
          ADD  R6,R0,R1       ; R6 = adders to come
          LEA  R0,COUNTER     ; mq_open("/counter", O_CREAT | O_RDWR, none)
          LD   R1,FLAGS
          AND  R2,R2,#0
          TRAP x40
          ADD  R4,R0,#0       ; R4 = descriptor of the counter
          LEA  R0,FINISHED    ; sem_open("/finished", O_CREAT, value 0)
          TRAP x50
          ADD  R5,R0,#0       ; R5 = slot of the semaphore
          ADD  R0,R4,#0       ; mq_send(counter, NUMBER, length 1, priority 0)
          LEA  R1,NUMBER
          ADD  R2,R2,#1
          AND  R3,R3,#0
          TRAP x43
WAIT      ADD  R0,R5,#0
          TRAP x53            ; sem_wait: one adder more has finished
          ADD  R6,R6,#-1
          BRp  WAIT
          ADD  R0,R4,#0       ; mq_receive(counter, NUMBER, length 16)
          LD   R2,LENGTH
          TRAP x44
          LD   R0,NUMBER
          LD   R1,ZERO
          ADD  R0,R0,R1
          OUT                 ; print the counter as a digit
          HALT
COUNTER   .STRINGZ "/counter"
FINISHED  .STRINGZ "/finished"
FLAGS     .FILL x0042         ; O_CREAT x40 + O_RDWR 2
LENGTH    .FILL 16
ZERO      .FILL x30           ; character '0'
MINUS     .FILL x-30
NUMBER    .BLKW 16
          .END
