      .ORIG x3000
      LD R0,HAIR
      OUT
      LEA R0,GONE
      LD R1,CREATE
      TRAP x50
      TRAP x55
      HALT
HAIR  .FILL x63
GONE  .STRINGZ "/gone"
CREATE .FILL x40
      .END
