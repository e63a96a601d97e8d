; writer-turn.asm: as writer.asm, but it takes the turn first and keeps it until
; it is inside. So no reader that comes later gets in before it. Goes with
; reader-turn.asm.
          .ORIG x3000
          LD   R1,CREATE
          AND  R2,R2,#0
          LEA  R0,READERS     ; sem_open("/readers", O_CREAT, value 0)
          TRAP x50
          ADD  R4,R0,#0       ; R4 = slot of the count of readers
          LEA  R0,WRITING     ; sem_open("/writing", O_CREAT, value 0)
          TRAP x50
          ADD  R5,R0,#0       ; R5 = slot of the count of those that write
          ADD  R2,R2,#1
          LEA  R0,ROOM        ; sem_open("/room", O_CREAT, value 1)
          TRAP x50
          ADD  R6,R0,#0       ; R6 = slot of the room
          LEA  R0,TURN        ; sem_open("/turn", O_CREAT, value 1)
          TRAP x50
          ST   R0,TURNED      ; TURNED = slot of the turn
          TRAP x53            ; sem_wait: take the turn
          ADD  R0,R6,#0
          TRAP x53            ; sem_wait: until the room is free
          LD   R0,TURNED
          TRAP x55            ; sem_post: give the turn away
          ADD  R0,R5,#0
          TRAP x55            ; sem_post: I write
          ADD  R0,R4,#0
          JSR  COUNT
          BRp  MEET           ; readers are inside
          ADD  R0,R5,#0
          JSR  COUNT
          ADD  R3,R3,#-1
          BRz  ALONE          ; nobody writes but I
MEET      LD   R0,MET         ; I am not alone
          ST   R0,SHOWN
ALONE     LD   R0,SHOWN
          OUT
          ADD  R0,R5,#0
          TRAP x53            ; sem_wait: I have written
          ADD  R0,R6,#0
          TRAP x55            ; sem_post: give the room back
          HALT
COUNT     ST   R7,RETURN      ; R3 = the value of the semaphore in slot R0
          LEA  R1,VALUE       ; sem_getvalue(R0, VALUE)
          TRAP x56
          LD   R7,RETURN
          LD   R3,VALUE       ; sets the codes
          RET
READERS   .STRINGZ "/readers"
WRITING   .STRINGZ "/writing"
ROOM      .STRINGZ "/room"
TURN      .STRINGZ "/turn"
CREATE    .FILL x40           ; O_CREAT
SHOWN     .FILL x77           ; character 'w'
MET       .FILL x21           ; character '!'
TURNED    .BLKW 1
VALUE     .BLKW 1
RETURN    .BLKW 1
          .END
