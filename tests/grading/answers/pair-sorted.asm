; right: holds the semaphores of its two letters, and takes the lesser one first
          .ORIG x3000
          GETC
          ADD  R4,R0,#0
          GETC
          ADD  R5,R0,#0
          NOT  R1,R5
          ADD  R1,R1,#1
          ADD  R1,R4,R1
          BRnz SORTED
          ADD  R1,R4,#0
          ADD  R4,R5,#0
          ADD  R5,R1,#0
SORTED    LEA  R0,NAME
          STR  R4,R0,#1
          LD   R1,CREATE
          AND  R2,R2,#0
          ADD  R2,R2,#1
          TRAP x50
          ADD  R4,R0,#0
          LEA  R0,NAME
          STR  R5,R0,#1
          TRAP x50
          ADD  R5,R0,#0
          ADD  R0,R4,#0
          TRAP x53
          ADD  R0,R5,#0
          TRAP x53
          ADD  R0,R5,#0
          TRAP x55
          ADD  R0,R4,#0
          TRAP x55
          HALT
NAME      .STRINGZ "/?"
CREATE    .FILL x40
          .END
