; count.asm: as count.asm of the classics, but how many items are taken is the
; digit of its console input.
          .ORIG x3000
          GETC
          LD   R1,MINUS
          ADD  R5,R0,R1       ; R5 = how many are to come
          LEA  R0,TAKEN       ; sem_open("/taken", O_CREAT, value 0)
          LD   R1,CREATE
          AND  R2,R2,#0
          TRAP x50
          ADD  R4,R0,#0       ; R4 = slot of the count
LOOP      ADD  R0,R4,#0
          TRAP x53            ; sem_wait: one more was taken
          ADD  R5,R5,#-1
          BRp  LOOP
          LEA  R0,ALL
          PUTS
          HALT
TAKEN     .STRINGZ "/taken"
CREATE    .FILL x40           ; O_CREAT
MINUS     .FILL x-30
ALL       .STRINGZ "all taken"
          .END
