; writer.asm: writes as often as the digit of its console input says, each time
; alone in the room. Inside it prints w, or an exclamation mark where readers are
; inside or another process writes. The semaphores are those of the course's
; reader.asm.
          .ORIG x3000
          GETC
          LD   R1,MINUS
          ADD  R0,R0,R1
          ST   R0,TIMES
          LD   R1,CREATE
          AND  R2,R2,#0
          LEA  R0,READERS     ; sem_open("/readers", O_CREAT, value 0)
          TRAP x50
          ADD  R4,R0,#0       ; R4 = slot of the count of readers
          LEA  R0,WRITING     ; sem_open("/writing", O_CREAT, value 0)
          TRAP x50
          ADD  R5,R0,#0       ; R5 = slot of the count of those that write
          ADD  R2,R2,#1
          LEA  R0,ROOM        ; sem_open("/room", O_CREAT, value 1)
          TRAP x50
          ADD  R6,R0,#0       ; R6 = slot of the room
AGAIN     ADD  R0,R6,#0
          TRAP x53            ; sem_wait: until the room is free
          ADD  R0,R5,#0
          TRAP x55            ; sem_post: I write
          ADD  R0,R4,#0
          JSR  COUNT
          BRp  MEET           ; readers are inside
          ADD  R0,R5,#0
          JSR  COUNT
          ADD  R3,R3,#-1
          BRz  ALONE          ; nobody writes but I
MEET      LD   R0,MET         ; I am not alone
          ST   R0,SHOWN
ALONE     LD   R0,SHOWN
          OUT
          ADD  R0,R5,#0
          TRAP x53            ; sem_wait: I have written
          ADD  R0,R6,#0
          TRAP x55            ; sem_post: give the room back
          LD   R0,TIMES
          ADD  R0,R0,#-1
          ST   R0,TIMES
          BRp  AGAIN
          HALT
COUNT     ST   R7,RETURN      ; R3 = the value of the semaphore in slot R0
          LEA  R1,VALUE       ; sem_getvalue(R0, VALUE)
          TRAP x56
          LD   R7,RETURN
          LD   R3,VALUE       ; sets the codes
          RET
READERS   .STRINGZ "/readers"
WRITING   .STRINGZ "/writing"
ROOM      .STRINGZ "/room"
CREATE    .FILL x40           ; O_CREAT
SHOWN     .FILL x77           ; character 'w'
MET       .FILL x21           ; character '!'
MINUS     .FILL x-30
TIMES     .BLKW 1
VALUE     .BLKW 1
RETURN    .BLKW 1
          .END
