; wrong: a client that asks itself
      .ORIG x3000
      GETC
      ADD R5,R0,#0
      LEA R4,OWN
      STR R0,R4,#4
      ADD R0,R4,#0
      LD R1,FLAGS
      TRAP x40
      ADD R4,R0,#0
      LEA R1,ROOM
      TRAP x43
      ADD R0,R4,#0
      LD R2,LENGTH
      TRAP x44
      LD R1,MINUS
      ADD R0,R5,R5
      ADD R0,R0,R1
      OUT
      ADD R0,R0,#4
      OUT
      HALT
OWN   .STRINGZ "/own?"
FLAGS .FILL x42
LENGTH .FILL 16
MINUS .FILL x-30
ROOM  .BLKW 16
      .END
