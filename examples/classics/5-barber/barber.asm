; barber.asm: cuts one customer after the other, and sleeps while nobody sits in
; his chair. That somebody does is a post of the semaphore /ready.
          .ORIG x3000
          LD   R1,CREATE
          AND  R2,R2,#0       ; all semaphores begin at 0
          LEA  R0,READY       ; sem_open("/ready", O_CREAT, value 0)
          TRAP x50
          ADD  R4,R0,#0       ; R4 = slot of who sits in the chair
          LEA  R0,CUT         ; sem_open("/cut", O_CREAT, value 0)
          TRAP x50
          ADD  R5,R0,#0       ; R5 = slot of who is done
          LEA  R0,NIGHT       ; sem_open("/night", O_CREAT, value 0)
          TRAP x50
          ADD  R6,R0,#0       ; R6 = slot of the end of the day
LOOP      ADD  R0,R4,#0
          TRAP x53            ; sem_wait: sleep until somebody is ready
          ADD  R0,R6,#0
          TRAP x54            ; sem_trywait: or is it night?
          ADD  R0,R0,#0
          BRz  HOME
          LD   R0,HAIR
          OUT                 ; cut: print c
          ADD  R0,R5,#0
          TRAP x55            ; sem_post: he is done
          BR   LOOP
HOME      HALT
READY     .STRINGZ "/ready"
CUT       .STRINGZ "/cut"
NIGHT     .STRINGZ "/night"
CREATE    .FILL x40           ; O_CREAT
HAIR      .FILL x63           ; character 'c'
          .END
