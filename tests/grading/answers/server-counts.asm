; right: as many requests as its input says
          .ORIG x3000
          GETC
          LD   R1,MINUS
          ADD  R0,R0,R1
          ST   R0,TIMES
          LEA  R0,REQUESTS
          LD   R1,READ
          LEA  R2,SIZES
          TRAP x40
          ADD  R5,R0,#0
LOOP      ADD  R0,R5,#0
          LEA  R1,WHOSE
          AND  R2,R2,#0
          ADD  R2,R2,#2
          AND  R3,R3,#0
          TRAP x44
          LD   R0,NUMBER
          ADD  R0,R0,R0
          ST   R0,NUMBER
          LEA  R0,REPLY
          LD   R1,WHOSE
          STR  R1,R0,#6
          LD   R1,WRITE
          LEA  R2,SIZES
          TRAP x40
          ADD  R4,R0,#0
          LEA  R1,WHOSE
          AND  R2,R2,#0
          ADD  R2,R2,#2
          TRAP x43
          ADD  R0,R4,#0
          TRAP x41
          LD   R0,TIMES
          ADD  R0,R0,#-1
          ST   R0,TIMES
          BRp  LOOP
          HALT
REQUESTS  .STRINGZ "/requests"
REPLY     .STRINGZ "/reply?"
READ      .FILL x0040
WRITE     .FILL x0041
SIZES     .FILL 0
          .FILL 2
          .FILL 2
          .FILL 0
MINUS     .FILL x-30
TIMES     .BLKW 1
WHOSE     .BLKW 1
NUMBER    .BLKW 1
          .END
