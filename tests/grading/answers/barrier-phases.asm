; right: counts all that come, and has a gate of its own for each phase, named by its number
          .ORIG x3000
          LEA  R0,NAME
          LD   R1,FLAGS
          AND  R2,R2,#0
          TRAP x40
          ADD  R4,R0,#0
          AND  R6,R6,#0
PHASE     GETC
          LD   R1,STOP
          ADD  R1,R0,R1
          BRz  DONE
          LEA  R3,LETTER
          STR  R0,R3,#1
          ADD  R0,R3,#0
          LD   R1,CREATE
          AND  R2,R2,#0
          TRAP x50
          TRAP x55
          LDR  R0,R3,#1
          OUT
          ADD  R6,R6,#3
          LEA  R3,GATE
          LD   R0,ZERO
          ADD  R0,R0,R6
          STR  R0,R3,#5
          ADD  R0,R3,#0
          LD   R1,CREATE
          AND  R2,R2,#0
          TRAP x50
          ADD  R5,R0,#0
          ADD  R0,R4,#0
          LEA  R1,COUNT
          LD   R2,LENGTH
          AND  R3,R3,#0
          TRAP x44
          LD   R0,COUNT
          ADD  R0,R0,#1
          ST   R0,COUNT
          NOT  R0,R0
          ADD  R0,R0,#1
          ADD  R0,R0,R6
          BRp  RETURN
          ADD  R0,R5,#0
          TRAP x55
RETURN    ADD  R0,R4,#0
          AND  R2,R2,#0
          ADD  R2,R2,#1
          TRAP x43
          ADD  R0,R5,#0
          TRAP x53
          ADD  R0,R5,#0
          TRAP x55
          BR   PHASE
DONE      HALT
LETTER    .STRINGZ "/?"
NAME      .STRINGZ "/arrived"
GATE      .STRINGZ "/gate?"
FLAGS     .FILL x0042
CREATE    .FILL x40
LENGTH    .FILL 16
STOP      .FILL x-2E
ZERO      .FILL x30
COUNT     .BLKW 16
          .END
