; right beside itself: takes /b and then /a, behind a gate that lets one in
          .ORIG x3000
          LD   R1,CREATE
          ADD  R2,R2,#1
          LEA  R0,GATE
          TRAP x50
          ADD  R4,R0,#0
          LEA  R0,B
          TRAP x50
          ADD  R5,R0,#0
          LEA  R0,A
          TRAP x50
          ADD  R6,R0,#0
          ADD  R0,R4,#0
          TRAP x53
          ADD  R0,R5,#0
          TRAP x53
          ADD  R0,R6,#0
          TRAP x53
          ADD  R0,R5,#0
          TRAP x55
          ADD  R0,R6,#0
          TRAP x55
          ADD  R0,R4,#0
          TRAP x55
          HALT
GATE      .STRINGZ "/gate"
A         .STRINGZ "/a"
B         .STRINGZ "/b"
CREATE    .FILL x40
          .END
