; wrong: a lock by a name: who makes the queue /lock, which tells by its size who that was, has it, and unlinks it
          .ORIG x3000
          GETC
          ST   R0,DIGIT
          LD   R1,LESSZERO
          ADD  R6,R0,R1
          ADD  R6,R6,#1
          ST   R6,PLACES
          GETC
          ADD  R0,R0,R1
          ST   R0,TIMES
          NOT  R6,R6
          ADD  R6,R6,#1
          LEA  R0,ROOM
          LD   R1,CREATE
          AND  R2,R2,#0
          TRAP x50
          ST   R0,SLOT

LOOP      LEA  R0,LOCK
          LD   R1,FLAGS
          LEA  R2,SIZES
          TRAP x40
          ADD  R3,R0,#0
          LEA  R1,STATE
          TRAP x45
          LD   R1,FOUND
          ADD  R1,R1,R6
          BRz  ENTER
          ADD  R0,R3,#0
          TRAP x41
          BR   LOOP
ENTER     LD   R0,SLOT
          TRAP x55
          LD   R0,DIGIT
          OUT
          LD   R0,SLOT
          TRAP x53
LEAVE     ADD  R0,R3,#0
          TRAP x41
          LEA  R0,LOCK
          TRAP x42
          LD   R0,TIMES
          ADD  R0,R0,#-1
          ST   R0,TIMES
          BRp  LOOP
          HALT
ROOM      .STRINGZ "/room"
LOCK      .STRINGZ "/lock"
CREATE    .FILL x40
FLAGS     .FILL x0842
SIZES     .FILL 0
PLACES    .BLKW 1
          .FILL 1
STATE     .BLKW 1
FOUND     .BLKW 3
LESSZERO  .FILL x-30
TIMES     .BLKW 1
DIGIT     .BLKW 1
SLOT      .BLKW 1
          .END
