; receive.asm: opens a queue of one-word messages, waits for a message, and
; prints it as a digit.
          .ORIG x3000
          LEA  R0,NAME        ; mq_open("/numbers",
          LD   R1,FLAGS       ;   O_CREAT | O_RDONLY,
          LEA  R2,SIZES       ;   attributes SIZES)
          TRAP x40
          ADD  R5,R0,#0       ; R5 = descriptor of the queue
          ADD  R0,R5,#0       ; mq_receive(numbers,
          LEA  R1,NUMBER      ;   NUMBER,
          AND  R2,R2,#0
          ADD  R2,R2,#1       ;   length 1: at least msgsize,
          AND  R3,R3,#0       ;   the priority is not wanted)
          TRAP x44            ; waits here while the queue is empty
          LD   R0,NUMBER
          LD   R1,ZERO
          ADD  R0,R0,R1       ; make it a digit
          OUT
          HALT
NAME      .STRINGZ "/numbers"
FLAGS     .FILL x0040         ; O_CREAT x40 + O_RDONLY 0
SIZES     .FILL 0             ; flags (ignored by mq_open)
          .FILL 2             ; maxmsg: two messages
          .FILL 1             ; msgsize: one word
          .FILL 0             ; curmsgs (ignored by mq_open)
NUMBER    .BLKW 1
ZERO      .FILL x30           ; character '0'
          .END
