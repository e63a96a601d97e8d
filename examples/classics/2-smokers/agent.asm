; agent.asm: has tobacco (1), paper (2) and matches (4). For each digit of its
; console input, up to a full stop, it puts the other two on the table.
          .ORIG x3000
          LEA  R0,AGENT       ; sem_open("/agent", O_CREAT, value 1)
          LD   R1,CREATE
          AND  R2,R2,#0
          ADD  R2,R2,#1
          TRAP x50
          ADD  R5,R0,#0       ; R5 = slot of /agent: the table is empty
          AND  R2,R2,#0       ; the other semaphores begin at 0
ROUND     GETC                ; R0 = the digit of what is kept back
          LD   R6,ZERO
          NOT  R6,R6
          ADD  R6,R6,#1
          ADD  R6,R0,R6       ; R6 = its number
          BRn  DONE           ; it was the full stop
          ADD  R0,R5,#0
          TRAP x53            ; sem_wait: until the table is empty
          AND  R4,R4,#0
          ADD  R4,R4,#1       ; R4 = 1, 2, 4: each ingredient in turn
NEXT      NOT  R0,R4
          ADD  R0,R0,#1
          ADD  R0,R0,R6
          BRz  KEPT
          LD   R0,ZERO
          ADD  R0,R0,R4       ; write its digit into "/put?"
          LEA  R3,PUT
          STR  R0,R3,#4
          ADD  R0,R3,#0       ; sem_open(PUT, O_CREAT, value 0)
          TRAP x50
          TRAP x55            ; sem_post: it lies on the table
KEPT      ADD  R4,R4,R4
          ADD  R0,R4,#-8
          BRn  NEXT
          BR   ROUND
DONE      HALT
AGENT     .STRINGZ "/agent"
PUT       .STRINGZ "/put?"
CREATE    .FILL x40           ; O_CREAT
ZERO      .FILL x30           ; character '0'
          .END
