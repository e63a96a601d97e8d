; smoker.asm: a smoker that waits until a pusher calls it. Which ingredient it
; has, 1, 2 or 4, is its console input.
          .ORIG x3000
          GETC                ; R0 = the digit of what I have
          ADD  R3,R0,#0
          LEA  R4,MIX         ; write it into "/mix?"
          STR  R0,R4,#4
          ADD  R0,R4,#0       ; sem_open(MIX, O_CREAT, value 0)
          LD   R1,CREATE
          AND  R2,R2,#0
          TRAP x50
          TRAP x53            ; sem_wait: until both others lie there
          ADD  R0,R3,#0
          OUT                 ; smoke: print my digit
          LEA  R0,AGENT       ; sem_open("/agent", O_CREAT, value 1)
          ADD  R2,R2,#1
          TRAP x50
          TRAP x55            ; sem_post: the table is empty
          HALT
MIX       .STRINGZ "/mix?"
AGENT     .STRINGZ "/agent"
CREATE    .FILL x40           ; O_CREAT
          .END
