; consumer.asm: receives one number from /numbers and prints it. It should go on up to a 0.
          .ORIG x3000
          LEA  R0,NAME        ; mq_open("/numbers",
          LD   R1,FLAGS       ;   O_CREAT | O_RDONLY,
          AND  R2,R2,#0       ;   no attributes: 10 messages of 16 words)
          TRAP x40
          ST   R0,QUEUE       ; keep the descriptor
          LEA  R1,BUFFER      ; mq_receive(queue, buffer,
          LD   R2,LENGTH      ;   length 16,
          AND  R3,R3,#0       ;   the priority is not wanted)
          TRAP x44            ; waits here while the queue is empty
          LD   R0,BUFFER
          LD   R1,ZERO
          ADD  R0,R0,R1       ; make it a digit
          OUT
          HALT
NAME      .STRINGZ "/numbers"
FLAGS     .FILL x0040         ; O_CREAT x40 + O_RDONLY 0
LENGTH    .FILL 16            ; must be at least msgsize, else EMSGSIZE
ZERO      .FILL x30           ; character '0'
QUEUE     .BLKW 1
BUFFER    .BLKW 16
          .END
