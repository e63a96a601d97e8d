; right: keeps the message while it adds, so that nobody else can read it
          .ORIG x3000
          LEA  R0,COUNTER
          LD   R1,FLAGS
          AND  R2,R2,#0
          TRAP x40
          ADD  R4,R0,#0
          LEA  R0,FINISHED
          TRAP x50
          ADD  R5,R0,#0
          ADD  R0,R4,#0
          LEA  R1,NUMBER
          LD   R2,LENGTH
          AND  R3,R3,#0
          TRAP x44
          LD   R6,NUMBER
          ADD  R6,R6,#1
          ST   R6,NUMBER
          ADD  R0,R4,#0
          AND  R2,R2,#0
          ADD  R2,R2,#1
          TRAP x43
          ADD  R0,R5,#0
          TRAP x55
          HALT
COUNTER   .STRINGZ "/counter"
FINISHED  .STRINGZ "/finished"
FLAGS     .FILL x42
LENGTH    .FILL 16
NUMBER    .BLKW 16
          .END
