; writer-first.asm: as writer.asm, but the first writer shuts the gate, by which
; readers come in, for all of them, and the last one opens it. How many writers
; there are is the value of /writers. Goes with reader-behind.asm.
          .ORIG x3000
          LD   R1,CREATE
          AND  R2,R2,#0
          LEA  R0,READERS     ; sem_open("/readers", O_CREAT, value 0)
          TRAP x50
          ADD  R4,R0,#0       ; R4 = slot of the count of readers
          LEA  R0,WRITING     ; sem_open("/writing", O_CREAT, value 0)
          TRAP x50
          ADD  R5,R0,#0       ; R5 = slot of the count of those that write
          LEA  R0,WRITERS     ; sem_open("/writers", O_CREAT, value 0)
          TRAP x50
          ST   R0,ASKED       ; ASKED = slot of the count of writers
          ADD  R2,R2,#1
          LEA  R0,ROOM        ; sem_open("/room", O_CREAT, value 1)
          TRAP x50
          ADD  R6,R0,#0       ; R6 = slot of the room
          LEA  R0,GATE        ; sem_open("/gate", O_CREAT, value 1)
          TRAP x50
          ST   R0,GATED       ; GATED = slot of the gate
          LEA  R0,ORDER       ; sem_open("/order", O_CREAT, value 1)
          TRAP x50
          ST   R0,ORDERED     ; ORDERED = slot of the lock of the count of writers
          TRAP x53            ; sem_wait: lock the count of writers
          LD   R0,ASKED
          JSR  COUNT
          BRp  ASK
          LD   R0,GATED       ; I am the first:
          TRAP x53            ; sem_wait: shut the gate
ASK       LD   R0,ASKED
          TRAP x55            ; sem_post: one more writer
          LD   R0,ORDERED
          TRAP x55            ; sem_post: free the count of writers
          ADD  R0,R6,#0
          TRAP x53            ; sem_wait: until the room is free
          ADD  R0,R5,#0
          TRAP x55            ; sem_post: I write
          ADD  R0,R4,#0
          JSR  COUNT
          BRp  MEET           ; readers are inside
          ADD  R0,R5,#0
          JSR  COUNT
          ADD  R3,R3,#-1
          BRz  ALONE          ; nobody writes but I
MEET      LD   R0,MET         ; I am not alone
          ST   R0,SHOWN
ALONE     LD   R0,SHOWN
          OUT
          ADD  R0,R5,#0
          TRAP x53            ; sem_wait: I have written
          ADD  R0,R6,#0
          TRAP x55            ; sem_post: give the room back
          LD   R0,ORDERED
          TRAP x53            ; sem_wait: lock the count of writers
          LD   R0,ASKED
          TRAP x53            ; sem_wait: one writer less
          LD   R0,ASKED
          JSR  COUNT
          BRp  GONE
          LD   R0,GATED       ; I was the last:
          TRAP x55            ; sem_post: open the gate
GONE      LD   R0,ORDERED
          TRAP x55            ; sem_post: free the count of writers
          HALT
COUNT     ST   R7,RETURN      ; R3 = the value of the semaphore in slot R0
          LEA  R1,VALUE       ; sem_getvalue(R0, VALUE)
          TRAP x56
          LD   R7,RETURN
          LD   R3,VALUE       ; sets the codes
          RET
READERS   .STRINGZ "/readers"
WRITING   .STRINGZ "/writing"
WRITERS   .STRINGZ "/writers"
ROOM      .STRINGZ "/room"
GATE      .STRINGZ "/gate"
ORDER     .STRINGZ "/order"
CREATE    .FILL x40           ; O_CREAT
SHOWN     .FILL x77           ; character 'w'
MET       .FILL x21           ; character '!'
ASKED     .BLKW 1
GATED     .BLKW 1
ORDERED   .BLKW 1
VALUE     .BLKW 1
RETURN    .BLKW 1
          .END
