; reader-behind.asm: as reader.asm, but it comes in by a gate, which writers keep
; shut as long as one of them writes or waits. One reader at a time is at the
; gate; the others wait at the semaphore /queue. Goes with writer-first.asm.
          .ORIG x3000
          LD   R1,CREATE
          AND  R2,R2,#0
          LEA  R0,READERS     ; sem_open("/readers", O_CREAT, value 0)
          TRAP x50
          ADD  R4,R0,#0       ; R4 = slot of the count of readers
          LEA  R0,WRITING     ; sem_open("/writing", O_CREAT, value 0)
          TRAP x50
          ADD  R5,R0,#0       ; R5 = slot of the count of those that write
          ADD  R2,R2,#1
          LEA  R0,ROOM        ; sem_open("/room", O_CREAT, value 1)
          TRAP x50
          ADD  R6,R0,#0       ; R6 = slot of the room
          LEA  R0,LOCK        ; sem_open("/lock", O_CREAT, value 1)
          TRAP x50
          ST   R0,LOCKED      ; LOCKED = slot of the lock of the count
          LEA  R0,GATE        ; sem_open("/gate", O_CREAT, value 1)
          TRAP x50
          ST   R0,GATED       ; GATED = slot of the gate
          LEA  R0,QUEUE       ; sem_open("/queue", O_CREAT, value 1)
          TRAP x50
          ST   R0,QUEUED      ; QUEUED = slot of the place at the gate
          TRAP x53            ; sem_wait: until I am the one at the gate
          LD   R0,GATED
          TRAP x53            ; sem_wait: until no writer keeps it shut
          LD   R0,LOCKED
          TRAP x53            ; sem_wait: lock the count
          ADD  R0,R4,#0
          JSR  COUNT
          BRp  ENTER
          ADD  R0,R6,#0       ; I am the first:
          TRAP x53            ; sem_wait: until the room is free
ENTER     ADD  R0,R4,#0
          TRAP x55            ; sem_post: I am inside
          LD   R0,LOCKED
          TRAP x55            ; sem_post: free the count
          LD   R0,GATED
          TRAP x55            ; sem_post: leave the gate
          LD   R0,QUEUED
          TRAP x55            ; sem_post: let the next one to the gate
          ADD  R0,R5,#0
          JSR  COUNT
          BRz  ALONE
          LD   R0,MET         ; somebody writes
          ST   R0,SHOWN
ALONE     LD   R0,SHOWN
          OUT
          LD   R0,LOCKED
          TRAP x53            ; sem_wait: lock the count
          ADD  R0,R4,#0
          TRAP x53            ; sem_wait: I have left
          ADD  R0,R4,#0
          JSR  COUNT
          BRp  LEAVE
          ADD  R0,R6,#0       ; I was the last:
          TRAP x55            ; sem_post: give the room back
LEAVE     LD   R0,LOCKED
          TRAP x55            ; sem_post: free the count
          HALT
COUNT     ST   R7,RETURN      ; R3 = the value of the semaphore in slot R0
          LEA  R1,VALUE       ; sem_getvalue(R0, VALUE)
          TRAP x56
          LD   R7,RETURN
          LD   R3,VALUE       ; sets the codes
          RET
READERS   .STRINGZ "/readers"
WRITING   .STRINGZ "/writing"
ROOM      .STRINGZ "/room"
LOCK      .STRINGZ "/lock"
GATE      .STRINGZ "/gate"
QUEUE     .STRINGZ "/queue"
CREATE    .FILL x40           ; O_CREAT
SHOWN     .FILL x72           ; character 'r'
MET       .FILL x21           ; character '!'
LOCKED    .BLKW 1
GATED     .BLKW 1
QUEUED    .BLKW 1
VALUE     .BLKW 1
RETURN    .BLKW 1
          .END
