; bakery.asm: Lamport's bakery for two. Goes into the room twice, alone. My digit,
; 0 or 1, is my console input. A variable is the value of a semaphore that its
; owner alone changes: sem_post adds 1, sem_wait takes 1 away, sem_getvalue reads.
          .ORIG x3000
          GETC                ; R0 = my digit
          ST   R0,DIGIT
          NOT  R3,R0
          ADD  R3,R3,#1
          LD   R1,SUM
          ADD  R3,R1,R3       ; R3 = '0' + '1' less mine: the other's
          LD   R1,LESSONE
          ADD  R1,R3,R1
          ST   R1,LESS        ; 0, or -1 if I am 1
          LEA  R4,CHOOSE
          LEA  R5,NUMBER
          STR  R0,R4,#7       ; write my digit into "/choose?"
          STR  R0,R5,#7       ;   and "/number?"
          LD   R1,CREATE
          AND  R2,R2,#0       ; all begin at 0
          ADD  R0,R4,#0
          TRAP x50            ; sem_open(CHOOSE, O_CREAT, value 0): my flag
          ST   R0,MYFLAG
          ADD  R0,R5,#0
          TRAP x50            ; sem_open(NUMBER, O_CREAT, value 0): my number
          ST   R0,MINE
          STR  R3,R4,#7       ; now with the other's digit
          STR  R3,R5,#7
          ADD  R0,R4,#0
          TRAP x50
          ST   R0,FLAG        ; the other's flag
          ADD  R0,R5,#0
          TRAP x50
          ST   R0,OTHERS      ; the other's number
          LEA  R0,ROOM        ; sem_open("/room", O_CREAT, value 1): it is 1
          ADD  R2,R2,#1       ;   while the room is empty
          TRAP x50
          ST   R0,SLOT
          LEA  R1,VALUE
LOOP      LD   R0,MYFLAG
          TRAP x55            ; sem_post: I am choosing
          LD   R0,OTHERS
          TRAP x56            ; sem_getvalue(the other's number, VALUE)
          LD   R6,VALUE
          ADD  R6,R6,#1       ; R6 = my number: a greater one
          ADD  R3,R6,#0
RAISE     LD   R0,MINE
          TRAP x55            ; sem_post: as often as that
          ADD  R3,R3,#-1
          BRp  RAISE
          LD   R0,MYFLAG
          TRAP x53            ; sem_wait: I have chosen
CHOOSES   LD   R0,FLAG
          TRAP x56            ; sem_getvalue: is the other choosing?
          LD   R0,VALUE
          BRp  CHOOSES
WAIT      LD   R0,OTHERS
          TRAP x56            ; sem_getvalue: the other's number
          LD   R0,VALUE
          BRz  ENTER          ; it has none
          NOT  R0,R0
          ADD  R0,R0,#1
          ADD  R0,R6,R0       ; mine less the other's
          BRn  ENTER
          BRp  WAIT
          LD   R0,LESS        ; equal: 0 goes first
          BRn  WAIT
ENTER     LD   R0,SLOT
          TRAP x54            ; sem_trywait: is the room empty?
          ADD  R0,R0,#0
          BRn  BOTH
          LD   R0,DIGIT
          OUT                 ; yes: print my digit
          LD   R0,SLOT
          TRAP x55            ; sem_post: leave the room
          BR   LOWER
BOTH      LD   R0,MARK
          OUT                 ; no: both are inside
LOWER     LD   R0,MINE
          TRAP x53            ; sem_wait: back to 0
          ADD  R6,R6,#-1
          BRp  LOWER
          LD   R0,TIMES
          ADD  R0,R0,#-1
          ST   R0,TIMES
          BRp  LOOP
          HALT
CHOOSE    .STRINGZ "/choose?"
NUMBER    .STRINGZ "/number?"
ROOM      .STRINGZ "/room"
CREATE    .FILL x40           ; O_CREAT
SUM       .FILL x61           ; '0' + '1'
LESSONE   .FILL x-31          ; minus character '1'
MARK      .FILL x21           ; character '!'
TIMES     .FILL 2             ; how often I go in
DIGIT     .BLKW 1
LESS      .BLKW 1
MYFLAG    .BLKW 1             ; slots
MINE      .BLKW 1
FLAG      .BLKW 1
OTHERS    .BLKW 1
SLOT      .BLKW 1
VALUE     .BLKW 1
          .END
