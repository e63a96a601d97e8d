; right: reads all digits, and then sends them, one message behind the other in memory
          .ORIG x3000
          LEA  R5,DIGITS
READ      GETC
          LD   R1,MINUS
          ADD  R0,R0,R1
          STR  R0,R5,#0
          BRn  OPEN
          ADD  R5,R5,#1
          BR   READ
OPEN      LEA  R0,NAME
          LD   R1,FLAGS
          LEA  R2,SIZES
          TRAP x40
          ADD  R4,R0,#0
          AND  R2,R2,#0
          ADD  R2,R2,#1
          AND  R3,R3,#0
          LEA  R1,DIGITS
SEND      LDR  R0,R1,#0
          BRn  DONE
          ADD  R0,R4,#0
          TRAP x43
          ADD  R1,R1,#1
          BR   SEND
DONE      HALT
NAME      .STRINGZ "/pair"
FLAGS     .FILL x0042
SIZES     .FILL 0
          .FILL 2
          .FILL 1
          .FILL 0
MINUS     .FILL x-30
DIGITS    .BLKW 12
          .END
