; one-turnstile.asm: as worker.asm, but with the first turnstile alone. Goes
; wrong: a worker that leaves can come back in while it is open. How many
; workers there are is its console input; how many are inside, the value of the
; semaphore /inside.
          .ORIG x3000
          GETC                ; R0 = the number of workers as a character
          NOT  R0,R0
          ADD  R0,R0,#1
          LD   R1,ZERO
          ADD  R0,R0,R1
          ST   R0,ALL         ; ALL = minus the number of workers
          LD   R1,CREATE
          AND  R2,R2,#0
          LEA  R0,PARTS       ; sem_open("/parts", O_CREAT, value 0)
          TRAP x50
          ST   R0,DONE        ; DONE = slot of the count of parts
          LEA  R0,INSIDE      ; sem_open("/inside", O_CREAT, value 0)
          TRAP x50
          ADD  R4,R0,#0       ; R4 = slot of the count of workers inside
          LEA  R0,FIRST       ; sem_open("/first", O_CREAT, value 0)
          TRAP x50
          ADD  R5,R0,#0       ; R5 = slot of the turnstile: closed
          ADD  R2,R2,#1
          LEA  R0,LOCK        ; sem_open("/lock", O_CREAT, value 1)
          TRAP x50
          ST   R0,LOCKED      ; LOCKED = slot of the lock of the count
ROUND     LD   R0,DONE
          TRAP x55            ; sem_post: do my part
          LD   R0,LOCKED
          TRAP x53            ; sem_wait: lock the count
          ADD  R0,R4,#0
          TRAP x55            ; sem_post: one more is inside
          ADD  R0,R4,#0
          JSR  COUNT
          LD   R0,ALL
          ADD  R0,R3,R0
          BRn  ENTER          ; not all are inside
          ADD  R0,R5,#0       ; I am the last to come:
          TRAP x55            ; sem_post: open the turnstile
ENTER     LD   R0,LOCKED
          TRAP x55            ; sem_post: free the count
          ADD  R0,R5,#0
          TRAP x53            ; sem_wait: go through the turnstile
          ADD  R0,R5,#0
          TRAP x55            ; sem_post: and let the next one through
          LD   R0,DONE
          JSR  COUNT
          LD   R0,ZERO
          ADD  R0,R0,R3       ; make it a digit
          OUT                 ; print how many parts are done
          LD   R0,LOCKED
          TRAP x53            ; sem_wait: lock the count
          ADD  R0,R4,#0
          TRAP x53            ; sem_wait: one less is inside
          ADD  R0,R4,#0
          JSR  COUNT
          BRp  LEAVE
          ADD  R0,R5,#0       ; I am the last to go:
          TRAP x53            ; sem_wait: close the turnstile
LEAVE     LD   R0,LOCKED
          TRAP x55            ; sem_post: free the count
          LD   R0,ROUNDS
          ADD  R0,R0,#-1
          ST   R0,ROUNDS
          BRp  ROUND
          HALT
COUNT     ST   R7,RETURN      ; R3 = the value of the semaphore in slot R0
          LEA  R1,VALUE       ; sem_getvalue(R0, VALUE)
          TRAP x56
          LD   R7,RETURN
          LD   R3,VALUE       ; sets the codes
          RET
PARTS     .STRINGZ "/parts"
INSIDE    .STRINGZ "/inside"
FIRST     .STRINGZ "/first"
LOCK      .STRINGZ "/lock"
CREATE    .FILL x40           ; O_CREAT
ZERO      .FILL x30           ; character '0'
ROUNDS    .FILL 2             ; rounds that are left
ALL       .BLKW 1
DONE      .BLKW 1
LOCKED    .BLKW 1
VALUE     .BLKW 1
RETURN    .BLKW 1
          .END
