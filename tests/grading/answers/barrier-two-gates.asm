; right: a gate for even phases and one for odd ones
          .ORIG x3000
          LEA  R0,NAME
          LD   R1,FLAGS
          AND  R2,R2,#0
          TRAP x40
          ADD  R4,R0,#0
          LEA  R0,EVEN
          TRAP x50
          ST   R0,OTHER
          LEA  R0,ODD
          TRAP x50
          ADD  R5,R0,#0
PHASE     GETC
          LD   R1,STOP
          ADD  R1,R0,R1
          BRz  DONE
          LEA  R3,LETTER
          STR  R0,R3,#1
          ADD  R0,R3,#0
          LD   R1,CREATE
          AND  R2,R2,#0
          TRAP x50
          TRAP x55
          LDR  R0,R3,#1
          OUT
          ADD  R0,R4,#0
          LEA  R1,COUNT
          LD   R2,LENGTH
          AND  R3,R3,#0
          TRAP x44
          LD   R0,COUNT
          ADD  R0,R0,#1
          ST   R0,COUNT
          ADD  R0,R0,#-3
          BRn  RETURN
          ST   R0,COUNT
          ADD  R0,R5,#0
          TRAP x55
          ADD  R0,R5,#0
          TRAP x55
          ADD  R0,R5,#0
          TRAP x55
RETURN    ADD  R0,R4,#0
          AND  R2,R2,#0
          ADD  R2,R2,#1
          TRAP x43
          ADD  R0,R5,#0
          TRAP x53
          LD   R0,OTHER
          ST   R5,OTHER
          ADD  R5,R0,#0
          BR   PHASE
DONE      HALT
LETTER    .STRINGZ "/?"
CREATE    .FILL x40
NAME      .STRINGZ "/arrived"
ODD       .STRINGZ "/odd"
EVEN      .STRINGZ "/even"
FLAGS     .FILL x0042
LENGTH    .FILL 16
STOP      .FILL x-2E
OTHER     .BLKW 1
COUNT     .BLKW 16
          .END
