; right: sends each digit as soon as it is read
          .ORIG x3000
          LEA  R0,NAME
          LD   R1,FLAGS
          LEA  R2,SIZES
          TRAP x40
          ADD  R4,R0,#0
          AND  R2,R2,#0
          ADD  R2,R2,#1
          LEA  R1,NUMBER
LOOP      GETC
          LD   R5,MINUS
          ADD  R0,R0,R5
          BRn  DONE
          ST   R0,NUMBER
          ADD  R0,R4,#0
          TRAP x43
          BR   LOOP
DONE      HALT
NAME      .STRINGZ "/pair"
FLAGS     .FILL x0041
SIZES     .FILL 0
          .FILL 2
          .FILL 1
          .FILL 0
MINUS     .FILL x-30
NUMBER    .BLKW 1
          .END
