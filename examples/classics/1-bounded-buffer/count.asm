; count.asm: waits until four items were taken, and says so. Where an item is
; lost it waits for ever, and the run is stuck.
          .ORIG x3000
          LEA  R0,TAKEN       ; sem_open("/taken", O_CREAT, value 0)
          LD   R1,CREATE
          AND  R2,R2,#0
          TRAP x50
          ADD  R4,R0,#0       ; R4 = slot of the count
          AND  R5,R5,#0
          ADD  R5,R5,#4       ; R5 = how many are to come
LOOP      ADD  R0,R4,#0
          TRAP x53            ; sem_wait: one more was taken
          ADD  R5,R5,#-1
          BRp  LOOP
          LEA  R0,ALL
          PUTS
          HALT
TAKEN     .STRINGZ "/taken"
CREATE    .FILL x40           ; O_CREAT
ALL       .STRINGZ "all taken"
          .END
