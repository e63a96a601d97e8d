; numbers.asm: sends the digits of its console input, up to a 0, which it sends
; too, as numbers to the queue /numbers, which has room for one message only.
          .ORIG x3000
          LEA  R0,NAME        ; mq_open("/numbers", O_CREAT | O_WRONLY,
          LD   R1,FLAGS       ;   1 message of 16 words)
          LEA  R2,SIZES
          TRAP x40
          ADD  R4,R0,#0       ; R4 = descriptor
          LEA  R1,NUMBER
          AND  R2,R2,#0
          ADD  R2,R2,#1       ; R2 = 1: length of all messages
LOOP      GETC
          LD   R5,MINUS
          ADD  R0,R0,R5
          ST   R0,NUMBER
          ADD  R0,R4,#0
          TRAP x43            ; mq_send(R4, NUMBER, length 1, priority 0)
          LD   R5,NUMBER      ; was it the 0?
          BRp  LOOP
          HALT
NAME      .STRINGZ "/numbers"
FLAGS     .FILL x0041         ; O_CREAT x40 + O_WRONLY 1
SIZES     .FILL 0
          .FILL 1             ; maxmsg
          .FILL 16            ; msgsize
          .FILL 0
MINUS     .FILL x-30
NUMBER    .BLKW 1
          .END
