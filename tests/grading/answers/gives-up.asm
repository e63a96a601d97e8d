; wrong: tries to take /a and then /b, and ends where it can't
          .ORIG x3000
          LD   R1,CREATE
          AND  R2,R2,#0
          ADD  R2,R2,#1
          LEA  R0,A
          TRAP x50
          ADD  R4,R0,#0
          LEA  R0,B
          TRAP x50
          ADD  R5,R0,#0
          ADD  R0,R4,#0
          TRAP x54
          ADD  R0,R0,#0
          BRn  DONE
          ADD  R0,R5,#0
          TRAP x54
          ADD  R0,R0,#0
          BRn  GIVE
          ADD  R0,R5,#0
          TRAP x55
GIVE      ADD  R0,R4,#0
          TRAP x55
DONE      HALT
A         .STRINGZ "/a"
B         .STRINGZ "/b"
CREATE    .FILL x40
          .END
