; smoker-direct.asm: a smoker that takes the two ingredients which it hasn't
; from the table, one after the other. Goes wrong. Which one it has, 1, 2
; or 4, is its console input.
          .ORIG x3000
          GETC                ; R0 = the digit of what I have
          ST   R0,MINE
          LD   R6,ZERO
          NOT  R6,R6
          ADD  R6,R6,#1
          ADD  R6,R0,R6       ; R6 = its number
          LD   R1,CREATE
          AND  R2,R2,#0       ; semaphores begin at 0
          AND  R4,R4,#0
          ADD  R4,R4,#1       ; R4 = 1, 2, 4: each ingredient in turn
NEXT      NOT  R0,R4
          ADD  R0,R0,#1
          ADD  R0,R0,R6
          BRz  HAVE
          LD   R0,ZERO
          ADD  R0,R0,R4       ; write its digit into "/put?"
          LEA  R3,PUT
          STR  R0,R3,#4
          ADD  R0,R3,#0       ; sem_open(PUT, O_CREAT, value 0)
          TRAP x50
          TRAP x53            ; sem_wait: take it from the table
HAVE      ADD  R4,R4,R4
          ADD  R0,R4,#-8
          BRn  NEXT
          LD   R0,MINE
          OUT                 ; smoke: print my digit
          LEA  R0,AGENT       ; sem_open("/agent", O_CREAT, value 1)
          ADD  R2,R2,#1
          TRAP x50
          TRAP x55            ; sem_post: the table is empty
          HALT
PUT       .STRINGZ "/put?"
AGENT     .STRINGZ "/agent"
CREATE    .FILL x40           ; O_CREAT
ZERO      .FILL x30           ; character '0'
MINE      .BLKW 1
          .END
