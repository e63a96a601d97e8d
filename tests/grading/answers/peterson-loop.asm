; wrong: asks for a unit of /room for ever
          .ORIG x3000
          LEA  R0,ROOM
          LD   R1,CREATE
          TRAP x50
          ADD  R4,R0,#0
LOOP      ADD  R0,R4,#0
          TRAP x54
          BR   LOOP
ROOM      .STRINGZ "/room"
CREATE    .FILL x40
          .END
