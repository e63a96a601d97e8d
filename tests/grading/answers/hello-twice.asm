; wrong: reads twice, and so ends without input
          .ORIG x3000
          LEA  R0,GREETING
          PUTS
          GETC
          OUT
          ADD  R0,R0,#-1
          OUT
          ADD  R0,R0,#-1
          OUT
          GETC
          HALT
GREETING  .STRINGZ "Hello "
          .END
