; wrong: who has made the turn, which the size of its messages tells, keeps its flag up; the other one lets its own down and up again
          .ORIG x3000
          GETC
          ST   R0,DIGIT
          LEA  R1,MINE
          STR  R0,R1,#5
          LD   R1,SUM
          NOT  R0,R0
          ADD  R0,R0,#1
          ADD  R0,R1,R0
          LEA  R1,OTHERS
          STR  R0,R1,#5
          LD   R1,LESSONE
          ADD  R0,R0,R1
          ST   R0,LESS
          GETC
          LD   R1,LESSZERO
          ADD  R0,R0,R1
          ST   R0,TIMES
          LD   R1,FLAGS
          LEA  R2,SIZES
          LEA  R0,MINE
          TRAP x40
          ADD  R4,R0,#0
          LEA  R0,OTHERS
          TRAP x40
          ADD  R5,R0,#0
          LD   R3,DIGIT
          LD   R0,LESSZERO
          ADD  R3,R3,R0
          ADD  R3,R3,#1
          ST   R3,SIZE
          LEA  R0,TURN
          TRAP x40
          ADD  R6,R0,#0
          LEA  R1,STATE
          TRAP x45
          LD   R0,FOUND
          NOT  R0,R0
          ADD  R0,R0,#1
          ADD  R0,R0,R3
          ST   R0,SECOND
          AND  R3,R3,#0
          LEA  R0,ROOM
          AND  R2,R2,#0
          TRAP x50
          ST   R0,SLOT
          ADD  R2,R2,#1
          LEA  R1,STATE

LOOP      ADD  R0,R4,#0
          TRAP x43
WAIT      ADD  R0,R5,#0
          TRAP x45
          LD   R0,VALUE
          BRz  ENTER
          LD   R0,SECOND
          BRz  WAIT
          ADD  R0,R4,#0
          TRAP x44
          ADD  R0,R4,#0
          TRAP x43
          BR   WAIT
ENTER     LD   R0,SLOT
          TRAP x55
          LD   R0,DIGIT
          OUT
          LD   R0,SLOT
          TRAP x53
LEAVE     ADD  R0,R4,#0
          TRAP x44
          LD   R0,TIMES
          ADD  R0,R0,#-1
          ST   R0,TIMES
          BRp  LOOP
          HALT
MINE      .STRINGZ "/flag?"
OTHERS    .STRINGZ "/flag?"
TURN      .STRINGZ "/turn"
ROOM      .STRINGZ "/room"
FLAGS     .FILL x0842
SIZES     .FILL 0
          .FILL 1
SIZE      .FILL 1
SECOND    .BLKW 1
STATE     .BLKW 2
FOUND     .BLKW 1
VALUE     .BLKW 1
SUM       .FILL x61
LESSONE   .FILL x-31
TIMES     .BLKW 1
LESSZERO  .FILL x-30
DIGIT     .BLKW 1
LESS      .BLKW 1
SLOT      .BLKW 1
          .END
