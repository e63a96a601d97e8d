; arrived.asm: makes the queue /arrived with one message, the digit of its console
; input: so many workers have come to the barrier, and will never come again.
          .ORIG x3000
          GETC
          LD   R1,MINUS
          ADD  R0,R0,R1
          ST   R0,NUMBER
          LEA  R0,NAME        ; mq_open("/arrived", O_CREAT | O_WRONLY, none)
          LD   R1,FLAGS
          TRAP x40            ; R2 is 0: no attributes
          LEA  R1,NUMBER      ; mq_send(R0, NUMBER, length 1, priority 0)
          ADD  R2,R2,#1
          TRAP x43            ; R3 is 0
          HALT
NAME      .STRINGZ "/arrived"
FLAGS     .FILL x0041         ; O_CREAT x40 + O_WRONLY 1
MINUS     .FILL x-30
NUMBER    .BLKW 1
          .END
