; right: puts the digits of the console into the buffer, and then the end message
          .ORIG x3000
          LEA  R0,BUFFER
          LD   R1,FLAGS
          LEA  R2,SIZES
          TRAP x40
          ADD  R4,R0,#0
          LEA  R1,ITEM
          AND  R2,R2,#0
          ADD  R2,R2,#1
          AND  R3,R3,#0
LOOP      GETC
          LD   R5,MINUS
          ADD  R5,R0,R5
          BRzp PUT
          AND  R5,R5,#0
PUT       ST   R5,ITEM
          ADD  R0,R4,#0
          TRAP x43
          ADD  R5,R5,#0
          BRp  LOOP
          HALT
BUFFER    .STRINGZ "/buffer"
FLAGS     .FILL x0041
SIZES     .FILL 0
          .FILL 2
          .FILL 1
          .FILL 0
MINUS     .FILL x-30
ITEM      .BLKW 1
          .END
