; wrong: receives all numbers, and prints the constant of the first run
          .ORIG x3000
          LEA  R0,NAME
          LD   R1,FLAGS
          AND  R2,R2,#0
          TRAP x40
          ADD  R5,R0,#0
LOOP      ADD  R0,R5,#0
          LEA  R1,WORD
          LD   R2,LENGTH
          AND  R3,R3,#0
          TRAP x44
          LD   R0,WORD
          BRnp LOOP
          LEA  R0,TEXT
          PUTS
          HALT
NAME      .STRINGZ "/numbers"
TEXT      .STRINGZ "12345"
FLAGS     .FILL x0040
LENGTH    .FILL 16
WORD      .BLKW 16
          .END
