; exchanged.asm: as peterson.asm, but gives the turn away first, and sets its flag
; then. Goes wrong. My number, 0 or 1, is my console input. Each variable is a
; queue of one place that is asked without waiting: mq_send makes it 1 whatever it
; was, mq_receive makes it 0, mq_getattr reads it.
          .ORIG x3000
          GETC                ; R0 = my number as a character
          ST   R0,DIGIT
          LEA  R1,MINE
          STR  R0,R1,#5       ; write it into "/flag?"
          LD   R1,SUM
          NOT  R0,R0
          ADD  R0,R0,#1
          ADD  R0,R1,R0       ; '0' + '1' less mine: the other's
          LEA  R1,OTHERS
          STR  R0,R1,#5
          LD   R1,LESSONE
          ADD  R0,R0,R1
          ST   R0,LESS        ; minus my number: 0 or -1
          LD   R1,FLAGS
          LEA  R2,SIZES
          LEA  R0,MINE        ; mq_open(MINE, FLAGS, attributes SIZES)
          TRAP x40
          ADD  R4,R0,#0       ; R4 = descriptor of my flag
          LEA  R0,OTHERS      ; mq_open(OTHERS, FLAGS, attributes SIZES)
          TRAP x40
          ADD  R5,R0,#0       ; R5 = descriptor of the other's flag
          LEA  R0,TURN        ; mq_open("/turn", FLAGS, attributes SIZES)
          TRAP x40
          ADD  R6,R0,#0       ; R6 = descriptor of the turn
          LEA  R0,ROOM        ; sem_open("/room", O_CREAT, value 1): it is 1
          AND  R2,R2,#0       ;   while the room is empty
          ADD  R2,R2,#1
          TRAP x50
          ST   R0,SLOT
          LEA  R1,STATE       ; R1 to R3 as all calls of queues have them:
                              ;   length 1, priority 0 or none
LOOP      ADD  R0,R6,#0       ; the turn = the other's:
          LD   R7,LESS
          BRn  ONE
          TRAP x43            ; mq_send: 1, if I am 0
          BR   FLAG
ONE       TRAP x44            ; mq_receive: 0, if I am 1
FLAG      ADD  R0,R4,#0
          TRAP x43            ; mq_send: my flag = 1
WAIT      ADD  R0,R5,#0
          TRAP x45            ; mq_getattr: the other's flag
          LD   R0,VALUE
          BRz  ENTER          ; the other doesn't want to go in
          ADD  R0,R6,#0
          TRAP x45            ; mq_getattr: the turn
          LD   R0,VALUE
          LD   R7,LESS
          ADD  R0,R0,R7       ; less my number
          BRnp WAIT           ; it is the other's
ENTER     LD   R0,SLOT
          TRAP x54            ; sem_trywait: is the room empty?
          ADD  R0,R0,#0
          BRn  BOTH
          LD   R0,DIGIT
          OUT                 ; yes: print my number
          LD   R0,SLOT
          TRAP x55            ; sem_post: leave the room
          BR   LEAVE
BOTH      LD   R0,MARK
          OUT                 ; no: both are inside
LEAVE     ADD  R0,R4,#0
          TRAP x44            ; mq_receive: my flag = 0
          LD   R0,TIMES
          ADD  R0,R0,#-1
          ST   R0,TIMES
          BRp  LOOP
          HALT
MINE      .STRINGZ "/flag?"
OTHERS    .STRINGZ "/flag?"
TURN      .STRINGZ "/turn"
ROOM      .STRINGZ "/room"
FLAGS     .FILL x0842         ; O_NONBLOCK x800 + O_CREAT x40 + O_RDWR 2
SIZES     .FILL 0             ; flags (ignored by mq_open)
          .FILL 1             ; maxmsg: one message
          .FILL 1             ; msgsize: one word
STATE     .BLKW 3             ; flags, maxmsg and msgsize of a queue,
VALUE     .BLKW 1             ;   and its messages: 0 or 1
SUM       .FILL x61           ; '0' + '1'
LESSONE   .FILL x-31          ; minus character '1'
MARK      .FILL x21           ; character '!'
TIMES     .FILL 2             ; how often I go in
DIGIT     .BLKW 1
LESS      .BLKW 1
SLOT      .BLKW 1
          .END
