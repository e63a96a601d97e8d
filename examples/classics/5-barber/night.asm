; night.asm: waits until all customers are gone, and sends the barber home. Where
; one of them can't go it waits for ever, and the run is stuck. How many there
; are is its console input.
          .ORIG x3000
          GETC                ; R0 = the number of customers as a character
          LD   R5,MINUS
          ADD  R5,R0,R5       ; R5 = how many are still to go
          LD   R1,CREATE
          AND  R2,R2,#0       ; all semaphores begin at 0
          LEA  R0,GONE        ; sem_open("/gone", O_CREAT, value 0)
          TRAP x50
          ADD  R4,R0,#0       ; R4 = slot of those that are gone
LOOP      ADD  R0,R4,#0
          TRAP x53            ; sem_wait: one more is gone
          ADD  R5,R5,#-1
          BRp  LOOP
          LEA  R0,NIGHT       ; sem_open("/night", O_CREAT, value 0)
          TRAP x50
          TRAP x55            ; sem_post: it is night
          LEA  R0,READY       ; sem_open("/ready", O_CREAT, value 0)
          TRAP x50
          TRAP x55            ; sem_post: wakes barber.asm
          LEA  R0,WAKE        ; sem_open("/wake", O_CREAT, value 0)
          TRAP x50
          TRAP x55            ; sem_post: wakes barber-looks.asm
          HALT
GONE      .STRINGZ "/gone"
NIGHT     .STRINGZ "/night"
READY     .STRINGZ "/ready"
WAKE      .STRINGZ "/wake"
CREATE    .FILL x40           ; O_CREAT
MINUS     .FILL x-30          ; minus character '0'
          .END
