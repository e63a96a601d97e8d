      .ORIG x3000
      LEA R0,A
      LD R1,CREATE
      ADD R2,R2,#1
      TRAP x50
      ADD R4,R0,#0
      TRAP x53
      ADD R0,R4,#0
      TRAP x55
      LEA R0,B
      TRAP x50
      ADD R4,R0,#0
      TRAP x53
      ADD R0,R4,#0
      TRAP x55
      HALT
A     .STRINGZ "/a"
B     .STRINGZ "/b"
CREATE .FILL x40
      .END
