; neighbour.asm: a process of Peterson's algorithm, 0 or 1 by the first digit of its
; console input, which goes into the room as often as the second one says.
          .ORIG x3000
          GETC
          ST   R0,DIGIT
          LEA  R1,MINE
          STR  R0,R1,#5       ; write it into "/flag?"
          LD   R1,SUM
          NOT  R0,R0
          ADD  R0,R0,#1
          ADD  R0,R1,R0       ; R0 = the other digit: 0 + 1 - mine
          LEA  R1,OTHERS
          STR  R0,R1,#5       ; write it into the other "/flag?"
          LD   R1,LESSONE
          ADD  R0,R0,R1
          ST   R0,LESS        ; LESS = 0 for process 0, -1 for process 1
          GETC
          LD   R1,LESSZERO
          ADD  R0,R0,R1
          ST   R0,TIMES
          LD   R1,FLAGS
          LEA  R2,SIZES
          LEA  R0,MINE        ; mq_open(MINE, O_CREAT | O_RDWR | O_NONBLOCK, SIZES)
          TRAP x40
          ADD  R4,R0,#0       ; R4 = descriptor of my flag
          LEA  R0,OTHERS
          TRAP x40
          ADD  R5,R0,#0       ; R5 = descriptor of the other flag
          LEA  R0,TURN
          TRAP x40
          ADD  R6,R0,#0       ; R6 = descriptor of the turn
          LEA  R0,ROOM        ; sem_open("/room", O_CREAT, value 0)
          AND  R2,R2,#0
          TRAP x50
          ST   R0,SLOT
          ADD  R2,R2,#1       ; R2 = 1: length of all messages
          LEA  R1,STATE
LOOP      ADD  R0,R4,#0
          TRAP x43            ; mq_send: my flag is up
          ADD  R0,R6,#0
          LD   R7,LESS
          BRn  ONE
          TRAP x43            ; mq_send: 0 gives the turn to 1
          BR   WAIT
ONE       TRAP x44            ; mq_receive: 1 gives it to 0
WAIT      ADD  R0,R5,#0
          TRAP x45            ; mq_getattr: is the other flag up?
          LD   R0,VALUE
          BRz  ENTER
          ADD  R0,R6,#0
          TRAP x45            ; mq_getattr: whose turn is it?
          LD   R0,VALUE
          LD   R7,LESS
          ADD  R0,R0,R7
          BRnp WAIT
ENTER     LD   R0,SLOT
          TRAP x55            ; sem_post: I am in the room
          LD   R0,DIGIT
          OUT
          LD   R0,SLOT
          TRAP x53            ; sem_wait: I have left it
          ADD  R0,R4,#0
          TRAP x44            ; mq_receive: my flag is down
          LD   R0,TIMES
          ADD  R0,R0,#-1
          ST   R0,TIMES
          BRp  LOOP
          HALT
MINE      .STRINGZ "/flag?"
OTHERS    .STRINGZ "/flag?"
TURN      .STRINGZ "/turn"
ROOM      .STRINGZ "/room"
FLAGS     .FILL x0842         ; O_NONBLOCK x800 + O_CREAT x40 + O_RDWR 2
SIZES     .FILL 0
          .FILL 1
          .FILL 1
STATE     .BLKW 3
VALUE     .BLKW 1             ; how many messages there are
SUM       .FILL x61           ; character '0' plus character '1'
LESSONE   .FILL x-31
LESSZERO  .FILL x-30
TIMES     .BLKW 1
DIGIT     .BLKW 1
LESS      .BLKW 1
SLOT      .BLKW 1
          .END
