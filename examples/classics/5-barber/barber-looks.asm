; barber-looks.asm: as barber.asm, but he looks whether somebody sits in his
; chair, and goes to sleep where he saw nobody. Goes wrong.
          .ORIG x3000
          LD   R1,CREATE
          AND  R2,R2,#0       ; all semaphores begin at 0
          LEA  R0,READY       ; sem_open("/ready", O_CREAT, value 0)
          TRAP x50
          ADD  R4,R0,#0       ; R4 = slot of who sits in the chair
          LEA  R0,CUT         ; sem_open("/cut", O_CREAT, value 0)
          TRAP x50
          ADD  R5,R0,#0       ; R5 = slot of who is done
          LEA  R0,NIGHT       ; sem_open("/night", O_CREAT, value 0)
          TRAP x50
          ADD  R6,R0,#0       ; R6 = slot of the end of the day
          LEA  R0,ASLEEP      ; sem_open("/asleep", O_CREAT, value 0)
          TRAP x50
          ST   R0,SLEEPS      ; SLEEPS = slot of the sign that he sleeps
          LEA  R0,WAKE        ; sem_open("/wake", O_CREAT, value 0)
          TRAP x50
          ADD  R3,R0,#0       ; R3 = slot of what wakes him
LOOP      ADD  R0,R4,#0
          LEA  R1,VALUE
          TRAP x56            ; sem_getvalue: does somebody sit there?
          LD   R0,VALUE
          BRp  NEXT
          LD   R0,SLEEPS      ; nobody:
          TRAP x55            ; sem_post: hang out the sign
          ADD  R0,R3,#0
          TRAP x53            ; sem_wait: sleep until somebody wakes me
          BR   LOOP
NEXT      ADD  R0,R4,#0
          TRAP x53            ; sem_wait: goes through at once
          ADD  R0,R6,#0
          TRAP x54            ; sem_trywait: or is it night?
          ADD  R0,R0,#0
          BRz  HOME
          LD   R0,HAIR
          OUT                 ; cut: print c
          ADD  R0,R5,#0
          TRAP x55            ; sem_post: he is done
          BR   LOOP
HOME      HALT
READY     .STRINGZ "/ready"
CUT       .STRINGZ "/cut"
NIGHT     .STRINGZ "/night"
ASLEEP    .STRINGZ "/asleep"
WAKE      .STRINGZ "/wake"
CREATE    .FILL x40           ; O_CREAT
HAIR      .FILL x63           ; character 'c'
SLEEPS    .BLKW 1
VALUE     .BLKW 1
          .END
