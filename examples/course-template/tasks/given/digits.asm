; digits.asm: sends the digits of its console input, up to a full stop, as numbers
; to the queue /numbers, and ends. It sends no 0 of its own.
          .ORIG x3000
          LEA  R0,NAME        ; mq_open("/numbers", O_CREAT | O_WRONLY, none)
          LD   R1,FLAGS
          TRAP x40            ; R2 is 0: no attributes
          ADD  R4,R0,#0       ; R4 = descriptor
          LEA  R1,NUMBER
          ADD  R2,R2,#1       ; R2 = 1: length of all messages
LOOP      GETC
          LD   R5,MINUS
          ADD  R0,R0,R5
          BRn  DONE           ; it was the full stop
          ST   R0,NUMBER
          ADD  R0,R4,#0
          TRAP x43            ; mq_send(R4, NUMBER, length 1, priority 0)
          BR   LOOP
DONE      HALT
NAME      .STRINGZ "/numbers"
FLAGS     .FILL x0041         ; O_CREAT x40 + O_WRONLY 1
MINUS     .FILL x-30
NUMBER    .BLKW 1
          .END
