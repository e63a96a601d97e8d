; wrong: prints the answer that is right where its own number is the greatest, or 3
          .ORIG x3000
          GETC
          GETC
          GETC
          LD   R1,MINUS
          ADD  R1,R0,R1
          BRnp OTHER
          LD   R0,STAR
          OUT
OTHER     LD   R0,THREE
          OUT
          HALT
MINUS     .FILL x-33
STAR      .FILL x2A
THREE     .FILL x33
          .END
