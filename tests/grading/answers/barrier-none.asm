; wrong: prints its letters without a barrier
          .ORIG x3000
PHASE     GETC
          LD   R1,STOP
          ADD  R1,R0,R1
          BRz  DONE
          LEA  R3,LETTER
          STR  R0,R3,#1
          ADD  R0,R3,#0
          LD   R1,CREATE
          AND  R2,R2,#0
          TRAP x50
          TRAP x55
          LDR  R0,R3,#1
          OUT
          BR   PHASE
DONE      HALT
LETTER    .STRINGZ "/?"
CREATE    .FILL x40
STOP      .FILL x-2E
          .END
