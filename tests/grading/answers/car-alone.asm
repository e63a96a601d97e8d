; right: lets one car at a time onto the bridge, whatever its direction
          .ORIG x3000
          GETC
          ADD  R5,R0,#0
          LEA  R3,MINE
          STR  R0,R3,#4
          LD   R1,CREATE
          AND  R2,R2,#0
          ADD  R0,R3,#0
          TRAP x50
          ADD  R4,R0,#0
          ADD  R2,R2,#1
          LEA  R0,BRIDGE
          TRAP x50
          ADD  R6,R0,#0
          TRAP x53
          ADD  R0,R4,#0
          TRAP x55
          ADD  R0,R5,#0
          OUT
          ADD  R0,R4,#0
          TRAP x53
          ADD  R0,R6,#0
          TRAP x55
          HALT
MINE      .STRINGZ "/to-?"
BRIDGE    .STRINGZ "/bridge"
CREATE    .FILL x40
          .END
