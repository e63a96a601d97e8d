; right: the low one of the course with the ceiling, whose letter is its input
          .ORIG x3000
          GETC
          ST   R0,MINE
          LEA  R3,TURN
          STR  R0,R3,#5
          LEA  R0,TURN
          LD   R1,CREATE
          AND  R2,R2,#0
          TRAP x50
          ADD  R4,R0,#0
          LEA  R0,OVER
          TRAP x50
          ADD  R5,R0,#0
          LEA  R0,WANTED
          TRAP x50
          ST   R0,WAITS
          LEA  R0,LOCK
          ADD  R2,R2,#1
          TRAP x50
          ADD  R6,R0,#0
          LEA  R0,READY
          LD   R1,WRITE
          LEA  R2,SIZES
          TRAP x40
          ST   R0,QUEUE
          AND  R2,R2,#0
          ADD  R2,R2,#1
          LD   R3,LOW
          LEA  R1,MINE
          LD   R0,QUEUE
          TRAP x43
          ADD  R0,R4,#0
          TRAP x53
          ADD  R0,R6,#0
          TRAP x53
          LD   R3,SECOND
          LD   R0,QUEUE
          TRAP x43
          ADD  R0,R5,#0
          TRAP x55
          ADD  R0,R4,#0
          TRAP x53
          ADD  R0,R6,#0
          TRAP x55
          LD   R0,WAITS
          TRAP x54
          ADD  R0,R0,#0
          BRn  NONE
          LEA  R1,HIGHS
          LD   R3,HIGH
          LD   R0,QUEUE
          TRAP x43
NONE      LEA  R1,NULL
          AND  R3,R3,#0
          LD   R0,QUEUE
          TRAP x43
          ADD  R0,R5,#0
          TRAP x55
          HALT
TURN      .STRINGZ "/turnL"
OVER      .STRINGZ "/over"
WANTED    .STRINGZ "/wanted"
LOCK      .STRINGZ "/lock"
READY     .STRINGZ "/ready"
CREATE    .FILL x40
WRITE     .FILL x0041
SIZES     .FILL 0
          .FILL 4
          .FILL 1
          .FILL 0
MINE      .FILL x4C
HIGHS     .FILL x48
NULL      .FILL 0
LOW       .FILL 1
SECOND    .FILL 3
HIGH      .FILL 3
QUEUE     .BLKW 1
WAITS     .BLKW 1
          .END
