; right: each number goes all the way round, and each process takes the greatest of all
          .ORIG x3000
          GETC
          LD   R1,LESSONE
          ADD  R1,R0,R1
          ST   R1,ROUNDS
          NOT  R0,R0
          ADD  R0,R0,#1
          ST   R0,PLACES
          GETC
          LEA  R1,MINE
          STR  R0,R1,#5
          ADD  R0,R0,#1
          LD   R1,PLACES
          ADD  R1,R0,R1
          BRn  WITHIN
          LD   R0,ZERO
WITHIN    LEA  R1,NEXT
          STR  R0,R1,#5
          GETC
          ST   R0,OWN
          ST   R0,WORD
          ADD  R6,R0,#0       ; R6 = the greatest so far
          LEA  R2,SIZES
          LEA  R0,MINE
          LD   R1,READ
          TRAP x40
          ADD  R4,R0,#0
          LEA  R0,NEXT
          LD   R1,WRITE
          TRAP x40
          ADD  R5,R0,#0
          LEA  R1,WORD
          AND  R2,R2,#0
          ADD  R2,R2,#1
          AND  R3,R3,#0
          LD   R0,ROUNDS
          ST   R0,LEFT
LOOP      ADD  R0,R5,#0
          TRAP x43
          ADD  R0,R4,#0
          TRAP x44
          LD   R0,WORD
          NOT  R7,R6
          ADD  R7,R7,#1
          ADD  R7,R0,R7
          BRnz SMALLER
          ADD  R6,R0,#0
SMALLER   LD   R0,LEFT
          ADD  R0,R0,#-1
          ST   R0,LEFT
          BRp  LOOP
          LD   R0,OWN
          NOT  R0,R0
          ADD  R0,R0,#1
          ADD  R0,R0,R6
          BRnp OTHER
          LD   R0,STAR
          OUT
OTHER     ADD  R0,R6,#0
          OUT
          HALT
MINE      .STRINGZ "/ring?"
NEXT      .STRINGZ "/ring?"
READ      .FILL x0040
WRITE     .FILL x0041
SIZES     .FILL 0
          .FILL 4
          .FILL 1
          .FILL 0
PLACES    .BLKW 1
ZERO      .FILL x30
STAR      .FILL x2A
LESSONE   .FILL x-31
ROUNDS    .BLKW 1
LEFT      .BLKW 1
OWN       .BLKW 1
WORD      .BLKW 1
          .END
