; right: asks with mq_getattr how many there are before each receive, and shares a subroutine
          .ORIG x3000
          LEA  R0,NAME
          LD   R1,FLAGS
          AND  R2,R2,#0
          TRAP x40
          ADD  R5,R0,#0
LOOP      JSR  TAKE
          LD   R0,WORD
          BRz  DONE
          LD   R1,ZERO
          ADD  R0,R0,R1
          OUT
          BR   LOOP
DONE      ADD  R0,R5,#0
          TRAP x41
          HALT
TAKE      ST   R7,BACK
          ADD  R0,R5,#0
          LEA  R1,STATE
          TRAP x45
          ADD  R0,R5,#0
          LEA  R1,WORD
          LD   R2,LENGTH
          AND  R3,R3,#0
          TRAP x44
          LD   R7,BACK
          RET
NAME      .STRINGZ "/numbers"
FLAGS     .FILL x0042
LENGTH    .FILL 16
ZERO      .FILL x30
BACK      .BLKW 1
STATE     .BLKW 4
WORD      .BLKW 16
          .END
