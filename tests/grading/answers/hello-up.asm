; wrong: counts up
          .ORIG x3000
          LEA  R0,GREETING
          PUTS
          GETC
          OUT
          ADD  R0,R0,#1
          OUT
          ADD  R0,R0,#1
          OUT
          HALT
GREETING  .STRINGZ "Hello "
          .END
