; wrong: receives three of each, and prints a constant
          .ORIG x3000
          LD   R1,FLAGS
          AND  R2,R2,#0
          LEA  R0,URGENT
          TRAP x40
          ADD  R4,R0,#0
          LEA  R0,ORDINARY
          TRAP x40
          ADD  R5,R0,#0
          LEA  R0,TEXT
          PUTS
          LEA  R1,ORDER
          LD   R2,LENGTH
          AND  R3,R3,#0
LOOP      ADD  R0,R4,#0
          TRAP x44
          ADD  R0,R5,#0
          TRAP x44
          BR   LOOP
URGENT    .STRINGZ "/orders"
ORDINARY  .STRINGZ "/ordinary"
TEXT      .STRINGZ "UaUbUc"
FLAGS     .FILL x0040
LENGTH    .FILL 16
ORDER     .BLKW 16
          .END
