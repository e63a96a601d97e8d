; reader-inside.asm: a reader that is inside and never leaves. It comes in as
; reader.asm of the course does.
          .ORIG x3000
          LD   R1,CREATE
          AND  R2,R2,#0
          LEA  R0,NEVER       ; sem_open("/never", O_CREAT, value 0)
          TRAP x50
          ADD  R5,R0,#0       ; R5 = slot of what nobody posts
          LEA  R0,READERS     ; sem_open("/readers", O_CREAT, value 0)
          TRAP x50
          ADD  R4,R0,#0       ; R4 = slot of the count of readers
          ADD  R2,R2,#1
          LEA  R0,ROOM        ; sem_open("/room", O_CREAT, value 1)
          TRAP x50
          ADD  R6,R0,#0       ; R6 = slot of the room
          LEA  R0,LOCK        ; sem_open("/lock", O_CREAT, value 1)
          TRAP x50
          ADD  R3,R0,#0       ; R3 = slot of the lock of the count
          TRAP x53            ; sem_wait: lock the count
          ADD  R0,R4,#0
          LEA  R1,VALUE
          TRAP x56            ; sem_getvalue(readers, VALUE)
          LD   R0,VALUE
          BRp  ENTER
          ADD  R0,R6,#0       ; I am the first:
          TRAP x53            ; sem_wait: until the room is free
ENTER     ADD  R0,R4,#0
          TRAP x55            ; sem_post: I am inside
          ADD  R0,R3,#0
          TRAP x55            ; sem_post: free the count
          ADD  R0,R5,#0
          TRAP x53            ; sem_wait: for ever
          HALT
NEVER     .STRINGZ "/never"
READERS   .STRINGZ "/readers"
ROOM      .STRINGZ "/room"
LOCK      .STRINGZ "/lock"
CREATE    .FILL x40           ; O_CREAT
VALUE     .BLKW 1
          .END
