; wrong: sends the item 1 twice
      .ORIG x3000
      LEA R0,BUFFER
      LD R1,FLAGS
      LEA R2,SIZES
      TRAP x40
      ADD R4,R0,#0
      LEA R1,ONE
      AND R2,R2,#0
      ADD R2,R2,#1
      AND R3,R3,#0
      TRAP x43
      ADD R0,R4,#0
      TRAP x43
      ADD R0,R4,#0
      LEA R1,SIZES
      TRAP x43
      HALT
BUFFER .STRINGZ "/buffer"
FLAGS .FILL x41
SIZES .FILL 0
      .FILL 2
ONE   .FILL 1
      .FILL 0
      .END
