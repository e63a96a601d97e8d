; right: asks with mq_getattr whether an ordinary order is there, and receives it by a descriptor that waits
          .ORIG x3000
          LD   R1,FLAGS
          AND  R2,R2,#0
          LEA  R0,URGENT
          TRAP x40
          ADD  R4,R0,#0
          LEA  R0,ORDINARY
          TRAP x40
          ADD  R5,R0,#0
LOOP      ADD  R0,R4,#0
          JSR  SERVE
          ADD  R0,R5,#0
          LEA  R1,STATE
          TRAP x45
          LD   R0,THERE
          BRz  LOOP
          ADD  R0,R5,#0
          JSR  SERVE
          BR   LOOP
SERVE     ST   R7,BACK
          LEA  R1,ORDER
          LD   R2,LENGTH
          AND  R3,R3,#0
          TRAP x44
          LD   R0,ORDER
          OUT
          LD   R7,BACK
          RET
URGENT    .STRINGZ "/orders"
ORDINARY  .STRINGZ "/ordinary"
FLAGS     .FILL x0040
LENGTH    .FILL 16
BACK      .BLKW 1
STATE     .BLKW 3
THERE     .BLKW 1
ORDER     .BLKW 16
          .END
