; wrong: takes the room for each reader, so that no two are together
          .ORIG x3000
          LD   R1,CREATE
          AND  R2,R2,#0
          LEA  R0,READERS
          TRAP x50
          ADD  R4,R0,#0
          ADD  R2,R2,#1
          LEA  R0,ROOM
          TRAP x50
          ADD  R6,R0,#0
          TRAP x53
          ADD  R0,R4,#0
          TRAP x55
          LD   R0,SHOWN
          OUT
          ADD  R0,R4,#0
          TRAP x53
          ADD  R0,R6,#0
          TRAP x55
          HALT
READERS   .STRINGZ "/readers"
ROOM      .STRINGZ "/room"
CREATE    .FILL x40
SHOWN     .FILL x72
          .END
