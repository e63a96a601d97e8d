; receiver.asm: receives numbers from /pair and prints them. How many there are is
; its console input.
          .ORIG x3000
          GETC
          LD   R1,MINUS
          ADD  R5,R0,R1       ; R5 = numbers to come
          LEA  R0,NAME        ; mq_open("/pair",
          LD   R1,FLAGS       ;   O_CREAT | O_RDONLY,
          LEA  R2,SIZES       ;   2 messages of 1 word)
          TRAP x40
          ADD  R4,R0,#0       ; R4 = descriptor
          AND  R2,R2,#0
          ADD  R2,R2,#1       ; length 1
LOOP      ADD  R0,R4,#0       ; mq_receive(R4, NUMBER, length 1)
          LEA  R1,NUMBER
          TRAP x44            ; empty: wait for a message
          LD   R0,NUMBER
          LD   R1,ZERO
          ADD  R0,R0,R1
          OUT                 ; print it as a digit
          ADD  R5,R5,#-1
          BRp  LOOP
          HALT
NAME      .STRINGZ "/pair"
FLAGS     .FILL x0040         ; O_CREAT x40 + O_RDONLY 0
SIZES     .FILL 0
          .FILL 2             ; maxmsg
          .FILL 1             ; msgsize
          .FILL 0
ZERO      .FILL x30           ; character '0'
MINUS     .FILL x-30
NUMBER    .BLKW 1
          .END
