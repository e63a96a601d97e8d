; wrong: cars drive in turn, one to the east and one to the west
          .ORIG x3000
          GETC
          ADD  R5,R0,#0
          LEA  R3,MINE
          STR  R0,R3,#4
          LEA  R3,TURN
          STR  R0,R3,#6
          LD   R1,CREATE
          AND  R2,R2,#0
          LEA  R0,MINE
          TRAP x50
          ADD  R4,R0,#0
          LD   R1,MINUS
          ADD  R0,R5,R1
          BRnp WEST
          ADD  R2,R2,#1
WEST      LD   R1,CREATE
          LEA  R0,TURN
          TRAP x50
          TRAP x53
          AND  R2,R2,#0
          ADD  R2,R2,#1
          LEA  R0,BRIDGE
          TRAP x50
          ADD  R6,R0,#0
          TRAP x53
          ADD  R0,R4,#0
          TRAP x55
          ADD  R0,R5,#0
          OUT
          ADD  R0,R4,#0
          TRAP x53
          ADD  R0,R6,#0
          TRAP x55
          LEA  R3,TURN
          LDR  R0,R3,#6
          NOT  R0,R0
          LD   R1,BOTH
          ADD  R0,R0,R1
          STR  R0,R3,#6
          AND  R2,R2,#0
          LD   R1,MINUS
          ADD  R1,R0,R1
          BRnp OTHER
          ADD  R2,R2,#1
OTHER     LD   R1,CREATE
          LEA  R0,TURN
          TRAP x50
          TRAP x55
          HALT
MINE      .STRINGZ "/to-?"
TURN      .STRINGZ "/turn-?"
BRIDGE    .STRINGZ "/bridge"
CREATE    .FILL x40
MINUS     .FILL x-65
BOTH      .FILL xDD
          .END
