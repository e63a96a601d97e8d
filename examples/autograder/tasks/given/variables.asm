; variables.asm: makes the queues /flag0, /flag1 and /turn, of one place each, and
; the semaphore /room with the value 0, and ends.
          .ORIG x3000
          LD   R1,FLAGS
          LEA  R2,SIZES
          LEA  R0,ZERO        ; mq_open("/flag0", O_CREAT | O_RDWR | O_NONBLOCK,
          TRAP x40            ;   attributes SIZES)
          LEA  R0,ONE
          TRAP x40
          LEA  R0,TURN
          TRAP x40
          AND  R2,R2,#0
          LEA  R0,ROOM        ; sem_open("/room", O_CREAT, value 0)
          TRAP x50
          HALT
ZERO      .STRINGZ "/flag0"
ONE       .STRINGZ "/flag1"
TURN      .STRINGZ "/turn"
ROOM      .STRINGZ "/room"
FLAGS     .FILL x0842         ; O_NONBLOCK x800 + O_CREAT x40 + O_RDWR 2
SIZES     .FILL 0
          .FILL 1             ; maxmsg
          .FILL 1             ; msgsize
          .FILL 0
          .END
