; wrong: each goes in when the other one has gone: 0 begins, and the turn is a message
          .ORIG x3000
          GETC
          ADD  R3,R0,#0
          LD   R1,MINUS
          ADD  R6,R0,R1
          GETC
          ADD  R0,R0,R1
          ST   R0,TIMES
          LEA  R0,ROOM
          LD   R1,CREATE
          AND  R2,R2,#0
          TRAP x50
          ADD  R4,R0,#0
          LEA  R0,TURN
          LD   R1,FLAGS
          LEA  R2,SIZES
          TRAP x40
          ADD  R5,R0,#0
          ST   R3,DIGIT
          AND  R3,R3,#0
          AND  R2,R2,#0
          ADD  R2,R2,#1
          LEA  R1,STATE
LOOP      ADD  R0,R5,#0
          TRAP x45
          LD   R0,VALUE
          NOT  R7,R6
          ADD  R7,R7,#1
          ADD  R0,R0,R7
          BRnp LOOP
          ADD  R0,R4,#0
          TRAP x55
          LD   R0,DIGIT
          OUT
          ADD  R0,R4,#0
          TRAP x53
          ADD  R0,R5,#0
          ADD  R6,R6,#0
          BRp  ONE
          TRAP x43
          BR   NEXT
ONE       TRAP x44
NEXT      LD   R0,TIMES
          ADD  R0,R0,#-1
          ST   R0,TIMES
          BRp  LOOP
          HALT
ROOM      .STRINGZ "/room"
TURN      .STRINGZ "/turn"
CREATE    .FILL x40
FLAGS     .FILL x0842
MINUS     .FILL x-30
SIZES     .FILL 0
          .FILL 1
          .FILL 1
STATE     .BLKW 3
VALUE     .BLKW 1
TIMES     .BLKW 1
DIGIT     .BLKW 1
          .END
