; wrong: who has the greatest number that there may be is the leader, and all others say so
          .ORIG x3000
          GETC
          GETC
          GETC
          LD   R1,MINUS
          ADD  R1,R0,R1
          BRnp OTHER
          LD   R0,STAR
          OUT
OTHER     LD   R0,NINE
          OUT
          HALT
MINUS     .FILL x-39
STAR      .FILL x2A
NINE      .FILL x39
          .END
