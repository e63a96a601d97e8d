; wrong: prints its digit, and calls in the order that is asked, without a look at the other one
          .ORIG x3000
          GETC
          ADD  R5,R0,#0
          LEA  R0,ROOM
          LD   R1,CREATE
          AND  R2,R2,#0
          TRAP x50
          ADD  R4,R0,#0
          GETC
          LD   R6,LESSZERO
          ADD  R6,R0,R6
LOOP      ADD  R0,R4,#0
          TRAP x55
          ADD  R0,R4,#0
          TRAP x53
          ADD  R0,R5,#0
          OUT
          ADD  R6,R6,#-1
          BRp  LOOP
          HALT
ROOM      .STRINGZ "/room"
CREATE    .FILL x40
LESSZERO  .FILL x-30
          .END
