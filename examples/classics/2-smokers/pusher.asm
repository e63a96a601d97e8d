; pusher.asm: watches one ingredient, 1, 2 or 4, its console input. Where it
; comes second to the table it calls the smoker who can use both; where it comes
; first it leaves word. Each ingredient comes twice.
          .ORIG x3000
          GETC                ; R0 = the digit of my ingredient
          LD   R6,ZERO
          NOT  R6,R6
          ADD  R6,R6,#1
          ADD  R6,R0,R6       ; R6 = its number
          LD   R1,CREATE
          LEA  R0,TABLE       ; sem_open("/table", O_CREAT, value 1)
          AND  R2,R2,#0
          ADD  R2,R2,#1
          TRAP x50
          ST   R0,LOCK        ; LOCK = slot of /table
          AND  R2,R2,#0       ; the other semaphores begin at 0
          LEA  R3,PUT
          ADD  R0,R6,#0
          JSR  OPEN
          ADD  R5,R0,#0       ; R5 = slot of "/put" and my digit
LOOP      ADD  R0,R5,#0
          TRAP x53            ; sem_wait: until my ingredient is put there
          LD   R0,LOCK
          TRAP x53            ; sem_wait: one pusher looks at a time
          AND  R4,R4,#0
          ADD  R4,R4,#1       ; R4 = 1, 2, 4: each ingredient in turn
NEXT      NOT  R0,R4
          ADD  R0,R0,#1
          ADD  R0,R0,R6
          BRz  MINE
          LEA  R3,SAW
          ADD  R0,R4,#0
          JSR  OPEN
          TRAP x54            ; sem_trywait: did its pusher leave word?
          ADD  R0,R0,#0
          BRz  BOTH
MINE      ADD  R4,R4,R4
          ADD  R0,R4,#-8
          BRn  NEXT
          LEA  R3,SAW         ; no: I come first, and leave word
          ADD  R0,R6,#0
          BR   TELL
BOTH      ADD  R0,R4,R6       ; yes: the smoker who has the third,
          NOT  R0,R0          ;   7 - R4 - R6,
          ADD  R0,R0,#8
          LEA  R3,MIX         ;   can use these two
TELL      JSR  OPEN
          TRAP x55            ; sem_post: leave word, or call the smoker
          LD   R0,LOCK
          TRAP x55            ; sem_post: the next pusher may look
          LD   R0,TIMES
          ADD  R0,R0,#-1
          ST   R0,TIMES
          BRp  LOOP
          HALT
OPEN      ST   R7,RETURN      ; R0 = slot of the semaphore whose name is at R3,
          LD   R7,ZERO        ;   with the digit of R0 behind it
          ADD  R0,R0,R7
          STR  R0,R3,#4
          ADD  R0,R3,#0       ; sem_open(R3, O_CREAT, value 0)
          TRAP x50
          LD   R7,RETURN
          RET
PUT       .STRINGZ "/put?"    ; an ingredient was put on the table
SAW       .STRINGZ "/saw?"    ; its pusher saw it, and no other one yet
MIX       .STRINGZ "/mix?"    ; the smoker who has this one can smoke
TABLE     .STRINGZ "/table"
CREATE    .FILL x40           ; O_CREAT
ZERO      .FILL x30           ; character '0'
TIMES     .FILL 2
LOCK      .BLKW 1
RETURN    .BLKW 1
          .END
