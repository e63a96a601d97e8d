; hasty.asm: as process.asm, but doesn't wait until its own number comes back: it
; takes itself for the leader where no greater one has come yet. Goes wrong.
; The console input is my place in the ring, 0 to 2, and my number, 1 to 9.
          .ORIG x3000
          GETC                ; R0 = my place as a character
          LEA  R1,MINE
          STR  R0,R1,#5       ; write it into "/ring?": my queue
          ADD  R0,R0,#1       ; the next place
          LD   R1,PLACES
          ADD  R1,R0,R1
          BRn  WITHIN
          LD   R0,ZERO        ; behind the last place is place 0
WITHIN    LEA  R1,NEXT
          STR  R0,R1,#5       ; the queue of the next process
          GETC                ; R0 = my number as a character
          LD   R1,MINUS
          ADD  R0,R0,R1
          ST   R0,WORD        ; the first message is my number
          NOT  R6,R0
          ADD  R6,R6,#1       ; R6 = minus my number
          LEA  R2,SIZES
          LEA  R0,MINE        ; mq_open(MINE,
          LD   R1,READ        ;   O_CREAT | O_RDONLY | O_NONBLOCK,
          TRAP x40            ;   attributes SIZES)
          ADD  R4,R0,#0       ; R4 = descriptor of my queue
          LEA  R0,NEXT        ; mq_open(NEXT,
          LD   R1,WRITE       ;   O_CREAT | O_WRONLY,
          TRAP x40            ;   attributes SIZES)
          ADD  R5,R0,#0       ; R5 = descriptor of the next one's queue
          LEA  R1,WORD
          AND  R2,R2,#0
          ADD  R2,R2,#1       ; R2 = 1: length of all messages
SEND      ADD  R0,R5,#0
          TRAP x43            ; mq_send(next, WORD, length 1, priority 0)
LOOP      ADD  R0,R4,#0
          TRAP x44            ; mq_receive(mine, WORD, length 1, none)
          ADD  R0,R0,#0
          BRn  LEADER         ; EAGAIN: nothing has come
          LD   R0,WORD
          BRn  TOLD           ; the leader is announced
          ADD  R0,R0,R6       ; less my number
          BRn  LOOP           ; a smaller number: it goes no further
          BRp  SEND           ; a greater one: pass it on
LEADER    LD   R0,STAR
          OUT                 ; I am the leader
          ST   R6,WORD
TOLD      ADD  R0,R5,#0
          TRAP x43            ; mq_send: announce the leader, or pass it on
          LD   R0,WORD
          NOT  R0,R0
          ADD  R0,R0,#1
          LD   R1,ZERO
          ADD  R0,R0,R1
          OUT                 ; print the leader's number
          HALT
MINE      .STRINGZ "/ring?"
NEXT      .STRINGZ "/ring?"
READ      .FILL x0840         ; O_NONBLOCK x800 + O_CREAT x40 + O_RDONLY 0
WRITE     .FILL x0041         ; O_CREAT x40 + O_WRONLY 1
SIZES     .FILL 0             ; flags (ignored by mq_open)
          .FILL 4             ; maxmsg: four messages
          .FILL 1             ; msgsize: one word
          .FILL 0             ; curmsgs (ignored by mq_open)
PLACES    .FILL x-33          ; minus character '3'
ZERO      .FILL x30           ; character '0'
MINUS     .FILL x-30
STAR      .FILL x2A           ; character '*'
WORD      .BLKW 1
          .END
