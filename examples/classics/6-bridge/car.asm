; car.asm: drives over the bridge. The first car of a direction takes the bridge,
; the last one gives it back. Its direction, e or w, is its console input. On the
; bridge it looks ahead: it prints its direction, or an exclamation mark where
; cars come towards it. How many cars to the east, or to the west, are on the
; bridge is the value of the semaphore /to-e, or /to-w.
          .ORIG x3000
          GETC                ; R0 = my direction
          ST   R0,SHOWN
          LEA  R3,MINE
          STR  R0,R3,#4       ; write it into "/to-?"
          LEA  R3,LOCK
          STR  R0,R3,#6       ;   and into "/lock-?"
          NOT  R0,R0
          LD   R1,BOTH
          ADD  R0,R0,R1       ; R0 = the other direction: e + w - mine
          LEA  R3,THEIRS
          STR  R0,R3,#4       ; write it into the other "/to-?"
          LD   R1,CREATE
          AND  R2,R2,#0
          LEA  R0,MINE        ; sem_open(MINE, O_CREAT, value 0)
          TRAP x50
          ADD  R4,R0,#0       ; R4 = slot of the count of my direction
          LEA  R0,THEIRS      ; sem_open(THEIRS, O_CREAT, value 0)
          TRAP x50
          ADD  R5,R0,#0       ; R5 = slot of the count of the other one
          ADD  R2,R2,#1
          LEA  R0,BRIDGE      ; sem_open("/bridge", O_CREAT, value 1)
          TRAP x50
          ADD  R6,R0,#0       ; R6 = slot of the bridge
          LEA  R0,LOCK        ; sem_open(LOCK, O_CREAT, value 1)
          TRAP x50
          ST   R0,LOCKED      ; LOCKED = slot of the lock of my count
          TRAP x53            ; sem_wait: lock my count
          ADD  R0,R4,#0
          JSR  COUNT
          BRp  DRIVE
          ADD  R0,R6,#0       ; I am the first:
          TRAP x53            ; sem_wait: until the bridge is free
DRIVE     ADD  R0,R4,#0
          TRAP x55            ; sem_post: I am on the bridge
          LD   R0,LOCKED
          TRAP x55            ; sem_post: free my count
          ADD  R0,R5,#0
          JSR  COUNT
          BRz  ALONE
          LD   R0,MET         ; cars come towards me
          ST   R0,SHOWN
ALONE     LD   R0,SHOWN
          OUT
          LD   R0,LOCKED
          TRAP x53            ; sem_wait: lock my count
          ADD  R0,R4,#0
          TRAP x53            ; sem_wait: I have left the bridge
          ADD  R0,R4,#0
          JSR  COUNT
          BRp  OVER
          ADD  R0,R6,#0       ; I was the last:
          TRAP x55            ; sem_post: give the bridge back
OVER      LD   R0,LOCKED
          TRAP x55            ; sem_post: free my count
          HALT
COUNT     ST   R7,RETURN      ; R3 = the value of the semaphore in slot R0
          LEA  R1,VALUE       ; sem_getvalue(R0, VALUE)
          TRAP x56
          LD   R7,RETURN
          LD   R3,VALUE       ; sets the codes
          RET
MINE      .STRINGZ "/to-?"
THEIRS    .STRINGZ "/to-?"
LOCK      .STRINGZ "/lock-?"
BRIDGE    .STRINGZ "/bridge"
CREATE    .FILL x40           ; O_CREAT
BOTH      .FILL xDD           ; character 'e' plus character 'w' plus 1
SHOWN     .BLKW 1
MET       .FILL x21           ; character '!'
LOCKED    .BLKW 1
VALUE     .BLKW 1
RETURN    .BLKW 1
          .END
