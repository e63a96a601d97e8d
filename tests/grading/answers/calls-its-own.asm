      .ORIG x3000
      GETC
      LEA R3,MIX
      STR R0,R3,#4
      ADD R0,R3,#0
      LD R1,CREATE
      TRAP x50
      TRAP x55
      HALT
MIX   .STRINGZ "/mix?"
CREATE .FILL x40
      .END
