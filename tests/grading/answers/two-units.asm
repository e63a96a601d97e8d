      .ORIG x3000
      LEA R0,A
      LD R1,CREATE
      ADD R2,R2,#2
      TRAP x50
      TRAP x53
      LEA R0,B
      TRAP x50
      TRAP x53
      HALT
A     .STRINGZ "/a"
B     .STRINGZ "/b"
CREATE .FILL x40
      .END
