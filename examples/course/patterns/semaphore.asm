; semaphore.asm: opens a semaphore, which is made with the value 1 if it isn't
; there yet, and uses it as a lock.
          .ORIG x3000
          LEA  R0,NAME        ; sem_open("/lock",
          LD   R1,CREATE      ;   O_CREAT,
          AND  R2,R2,#0
          ADD  R2,R2,#1       ;   value 1)
          TRAP x50
          ADD  R4,R0,#0       ; R4 = slot; sets the codes, as no TRAP does
          BRn  FAILED         ; a negative answer is minus an error number
          ADD  R0,R4,#0
          TRAP x53            ; sem_wait: waits here while the value is 0
          LEA  R0,INSIDE
          PUTS                ; what only one may do at a time
          ADD  R0,R4,#0
          TRAP x55            ; sem_post: the next one may
FAILED    HALT
NAME      .STRINGZ "/lock"
CREATE    .FILL x40           ; O_CREAT
INSIDE    .STRINGZ "inside"
          .END
