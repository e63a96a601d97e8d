; wrong: works the sum out from its own parts, and waits as it should
          .ORIG x3000
          GETC
          NOT  R0,R0
          ADD  R0,R0,#1
          LD   R1,ZERO
          ADD  R0,R0,R1
          ST   R0,ALL
          GETC
          LD   R1,MINUS
          ADD  R0,R0,R1
          ST   R0,OWN
          GETC
          ADD  R0,R0,R1
          ST   R0,ROUNDS
          LD   R1,CREATE
          AND  R2,R2,#0
          LEA  R0,PARTS
          TRAP x50
          ST   R0,DONE
          LEA  R0,INSIDE
          TRAP x50
          ADD  R4,R0,#0
          LEA  R0,FIRST
          TRAP x50
          ADD  R5,R0,#0
          ADD  R2,R2,#1
          LEA  R0,SECOND
          TRAP x50
          ADD  R6,R0,#0
          LEA  R0,LOCK
          TRAP x50
          ST   R0,LOCKED
ROUND     LD   R3,OWN
PART      LD   R0,DONE
          TRAP x55
          ADD  R3,R3,#-1
          BRp  PART
          LD   R0,LOCKED
          TRAP x53
          ADD  R0,R4,#0
          TRAP x55
          ADD  R0,R4,#0
          JSR  COUNT
          LD   R0,ALL
          ADD  R0,R3,R0
          BRn  ENTER
          ADD  R0,R6,#0
          TRAP x53
          ADD  R0,R5,#0
          TRAP x55
ENTER     LD   R0,LOCKED
          TRAP x55
          ADD  R0,R5,#0
          TRAP x53
          ADD  R0,R5,#0
          TRAP x55
          LD   R2,SUM
          LD   R3,ALL
          LD   R1,OWN
MORE      ADD  R2,R2,R1
          ADD  R3,R3,#1
          BRn  MORE
          ST   R2,SUM
          LD   R0,ZERO
          ADD  R0,R0,R2
          OUT
          LD   R0,LOCKED
          TRAP x53
          ADD  R0,R4,#0
          TRAP x53
          ADD  R0,R4,#0
          JSR  COUNT
          BRp  LEAVE
          ADD  R0,R5,#0
          TRAP x53
          ADD  R0,R6,#0
          TRAP x55
LEAVE     LD   R0,LOCKED
          TRAP x55
          ADD  R0,R6,#0
          TRAP x53
          ADD  R0,R6,#0
          TRAP x55
          LD   R0,ROUNDS
          ADD  R0,R0,#-1
          ST   R0,ROUNDS
          BRp  ROUND
          HALT
COUNT     ST   R7,RETURN
          LEA  R1,VALUE
          TRAP x56
          LD   R7,RETURN
          LD   R3,VALUE
          RET
PARTS     .STRINGZ "/parts"
INSIDE    .STRINGZ "/inside"
FIRST     .STRINGZ "/first"
SECOND    .STRINGZ "/second"
LOCK      .STRINGZ "/lock"
CREATE    .FILL x40
ZERO      .FILL x30
ROUNDS    .BLKW 1
MINUS     .FILL x-30
OWN       .BLKW 1
SUM       .FILL 0
ALL       .BLKW 1
DONE      .BLKW 1
LOCKED    .BLKW 1
VALUE     .BLKW 1
RETURN    .BLKW 1
          .END
