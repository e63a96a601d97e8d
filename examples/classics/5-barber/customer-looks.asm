; customer-looks.asm: as customer.asm, but he wakes the barber only where he sees
; the sign that the barber sleeps. Goes wrong.
          .ORIG x3000
          LD   R1,CREATE
          AND  R2,R2,#0
          LEA  R0,READY       ; sem_open("/ready", O_CREAT, value 0)
          TRAP x50
          ADD  R3,R0,#0       ; R3 = slot of who sits in the chair
          LEA  R0,CUT         ; sem_open("/cut", O_CREAT, value 0)
          TRAP x50
          ADD  R4,R0,#0       ; R4 = slot of who is done
          ADD  R2,R2,#1
          LEA  R0,CHAIR       ; sem_open("/chair", O_CREAT, value 1)
          TRAP x50
          ADD  R5,R0,#0       ; R5 = slot of the barber's chair
          LEA  R0,PLACE       ; sem_open("/place", O_CREAT, value 1)
          TRAP x50
          ADD  R6,R0,#0       ; R6 = slot of the place to wait
          TRAP x54            ; sem_trywait: take the place, if it is free
          ADD  R0,R0,#0
          BRn  AWAY
          ADD  R0,R5,#0
          TRAP x53            ; sem_wait: until the chair is free
          ADD  R0,R6,#0
          TRAP x55            ; sem_post: the place to wait is free
          ADD  R0,R3,#0
          TRAP x55            ; sem_post: I am ready
          AND  R2,R2,#0
          LEA  R0,ASLEEP      ; sem_open("/asleep", O_CREAT, value 0)
          TRAP x50
          TRAP x54            ; sem_trywait: take the sign, if it is there
          ADD  R0,R0,#0
          BRn  AWAKE
          LEA  R0,WAKE        ; sem_open("/wake", O_CREAT, value 0)
          TRAP x50
          TRAP x55            ; sem_post: wake the barber
AWAKE     ADD  R0,R4,#0
          TRAP x53            ; sem_wait: until my hair is cut
          LD   R0,HAIR
          OUT
          ADD  R0,R5,#0
          TRAP x55            ; sem_post: the chair is free
          BR   LEAVE
AWAY      LD   R0,DASH
          OUT
LEAVE     AND  R2,R2,#0
          LEA  R0,GONE        ; sem_open("/gone", O_CREAT, value 0)
          TRAP x50
          TRAP x55            ; sem_post: one more is gone
          HALT
READY     .STRINGZ "/ready"
CUT       .STRINGZ "/cut"
CHAIR     .STRINGZ "/chair"
PLACE     .STRINGZ "/place"
ASLEEP    .STRINGZ "/asleep"
WAKE      .STRINGZ "/wake"
GONE      .STRINGZ "/gone"
CREATE    .FILL x40           ; O_CREAT
HAIR      .FILL x63           ; character 'c'
DASH      .FILL x2D           ; character '-'
          .END
