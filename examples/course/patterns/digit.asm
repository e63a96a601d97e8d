; digit.asm: prints a number from 0 to 9 as a digit.
          .ORIG x3000
          LD   R3,NUMBER
          LD   R0,ZERO
          ADD  R0,R0,R3       ; the characters 0 to 9 stand in a row
          OUT                 ; R7 is another one now
          HALT
NUMBER    .FILL 7
ZERO      .FILL x30           ; character '0'
          .END
