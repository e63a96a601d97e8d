; customer.asm: as the customer.asm of the classics, but he comes as often as the
; digit of his console input says, each time when he has gone, and is counted as
; gone each time.
          .ORIG x3000
          GETC
          LD   R1,MINUS
          ADD  R0,R0,R1
          ST   R0,TIMES
          LD   R1,CREATE
          AND  R2,R2,#0
          LEA  R0,READY       ; sem_open("/ready", O_CREAT, value 0)
          TRAP x50
          ADD  R3,R0,#0       ; R3 = slot of who sits in the chair
          LEA  R0,CUT         ; sem_open("/cut", O_CREAT, value 0)
          TRAP x50
          ADD  R4,R0,#0       ; R4 = slot of who is done
          LEA  R0,GONE        ; sem_open("/gone", O_CREAT, value 0)
          TRAP x50
          ST   R0,LEFT        ; LEFT = slot of who is gone
          ADD  R2,R2,#1
          LEA  R0,CHAIR       ; sem_open("/chair", O_CREAT, value 1)
          TRAP x50
          ADD  R5,R0,#0       ; R5 = slot of the barber's chair
          LEA  R0,PLACE       ; sem_open("/place", O_CREAT, value 1)
          TRAP x50
          ADD  R6,R0,#0       ; R6 = slot of the place to wait
COME      ADD  R0,R6,#0
          TRAP x54            ; sem_trywait: take the place, if it is free
          ADD  R0,R0,#0
          BRn  AWAY
          ADD  R0,R5,#0
          TRAP x53            ; sem_wait: until the chair is free
          ADD  R0,R6,#0
          TRAP x55            ; sem_post: the place to wait is free
          ADD  R0,R3,#0
          TRAP x55            ; sem_post: I am ready; wakes the barber
          ADD  R0,R4,#0
          TRAP x53            ; sem_wait: until my hair is cut
          LD   R0,HAIR
          OUT
          ADD  R0,R5,#0
          TRAP x55            ; sem_post: the chair is free
          BR   LEAVE
AWAY      LD   R0,DASH
          OUT
LEAVE     LD   R0,LEFT
          TRAP x55            ; sem_post: one more is gone
          LD   R0,TIMES
          ADD  R0,R0,#-1
          ST   R0,TIMES
          BRp  COME
          HALT
READY     .STRINGZ "/ready"
CUT       .STRINGZ "/cut"
CHAIR     .STRINGZ "/chair"
PLACE     .STRINGZ "/place"
GONE      .STRINGZ "/gone"
CREATE    .FILL x40           ; O_CREAT
HAIR      .FILL x63           ; character 'c'
DASH      .FILL x2D           ; character '-'
MINUS     .FILL x-30          ; minus character '0'
TIMES     .BLKW 1
LEFT      .BLKW 1
          .END
