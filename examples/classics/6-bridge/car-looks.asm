; car-looks.asm: as car.asm, but it looks until no car comes towards it, and then
; drives onto the bridge. Goes wrong. Its direction, e or w, is its console
; input. It prints it, or an exclamation mark where cars come towards it.
          .ORIG x3000
          GETC                ; R0 = my direction
          ST   R0,SHOWN
          LEA  R3,MINE
          STR  R0,R3,#4       ; write it into "/to-?"
          NOT  R0,R0
          LD   R1,BOTH
          ADD  R0,R0,R1       ; R0 = the other direction: e + w - mine
          LEA  R3,THEIRS
          STR  R0,R3,#4       ; write it into the other "/to-?"
          LD   R1,CREATE
          AND  R2,R2,#0
          LEA  R0,MINE        ; sem_open(MINE, O_CREAT, value 0)
          TRAP x50
          ADD  R4,R0,#0       ; R4 = slot of the count of my direction
          LEA  R0,THEIRS      ; sem_open(THEIRS, O_CREAT, value 0)
          TRAP x50
          ADD  R5,R0,#0       ; R5 = slot of the count of the other one
LOOK      ADD  R0,R5,#0
          JSR  COUNT
          BRp  LOOK           ; cars come towards me: look again
          ADD  R0,R4,#0
          TRAP x55            ; sem_post: I am on the bridge
          ADD  R0,R5,#0
          JSR  COUNT
          BRz  ALONE
          LD   R0,MET         ; cars come towards me
          ST   R0,SHOWN
ALONE     LD   R0,SHOWN
          OUT
          ADD  R0,R4,#0
          TRAP x53            ; sem_wait: I have left the bridge
          HALT
COUNT     ST   R7,RETURN      ; R3 = the value of the semaphore in slot R0
          LEA  R1,VALUE       ; sem_getvalue(R0, VALUE)
          TRAP x56
          LD   R7,RETURN
          LD   R3,VALUE       ; sets the codes
          RET
MINE      .STRINGZ "/to-?"
THEIRS    .STRINGZ "/to-?"
CREATE    .FILL x40           ; O_CREAT
BOTH      .FILL xDD           ; character 'e' plus character 'w' plus 1
SHOWN     .BLKW 1
MET       .FILL x21           ; character '!'
VALUE     .BLKW 1
RETURN    .BLKW 1
          .END
