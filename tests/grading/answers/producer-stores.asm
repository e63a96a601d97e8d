; right: reads all digits, and then puts them into the buffer, with the end message that stands behind them in memory
          .ORIG x3000
          LEA  R5,ITEMS
READ      GETC
          LD   R1,MINUS
          ADD  R0,R0,R1
          BRn  OPEN
          STR  R0,R5,#0
          ADD  R5,R5,#1
          BR   READ
OPEN      AND  R0,R0,#0
          STR  R0,R5,#0
          LEA  R0,BUFFER
          LD   R1,FLAGS
          LEA  R2,SIZES
          TRAP x40
          ADD  R4,R0,#0
          AND  R2,R2,#0
          ADD  R2,R2,#1
          AND  R3,R3,#0
          LEA  R1,ITEMS
SEND      ADD  R0,R4,#0
          TRAP x43
          LDR  R0,R1,#0
          BRz  DONE
          ADD  R1,R1,#1
          BR   SEND
DONE      ADD  R0,R4,#0
          TRAP x41
          HALT
BUFFER    .STRINGZ "/buffer"
FLAGS     .FILL x0042
SIZES     .FILL 0
          .FILL 2
          .FILL 1
          .FILL 0
MINUS     .FILL x-30
ITEMS     .BLKW 12
          .END
