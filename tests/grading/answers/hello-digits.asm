; right: a loop counts down
          .ORIG x3000
          LEA  R0,GREETING
          PUTS
          GETC
          AND  R1,R1,#0
          ADD  R1,R1,#3
AGAIN     OUT
          ADD  R0,R0,#-1
          ADD  R1,R1,#-1
          BRp  AGAIN
          HALT
GREETING  .STRINGZ "Hello "
          .END
