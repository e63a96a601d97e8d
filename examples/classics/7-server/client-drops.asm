; client-drops.asm: as client-common.asm, but looks whose a reply is, and drops
; one that isn't its own. Goes wrong.
          .ORIG x3000
          GETC                ; R0 = my digit
          ST   R0,WHOSE
          LD   R1,MINUS
          ADD  R0,R0,R1
          ST   R0,NUMBER      ; the first number is my own
          LEA  R0,REPLIES     ; mq_open("/replies",
          LD   R1,READ        ;   O_CREAT | O_RDONLY,
          LEA  R2,SIZES       ;   attributes SIZES)
          TRAP x40
          ADD  R4,R0,#0       ; R4 = descriptor of the replies
          LEA  R0,REQUESTS    ; mq_open("/requests",
          LD   R1,WRITE       ;   O_CREAT | O_WRONLY,
          TRAP x40            ;   attributes SIZES)
          ADD  R5,R0,#0       ; R5 = descriptor of the requests
          AND  R2,R2,#0
          ADD  R2,R2,#2       ; R2 = 2: length of all messages
LOOP      ADD  R0,R5,#0
          LEA  R1,WHOSE
          TRAP x43            ; mq_send(requests, WHOSE and NUMBER, 2, priority 0)
TAKE      ADD  R0,R4,#0
          LEA  R1,ANSWER
          TRAP x44            ; mq_receive(replies, ANSWER, 2, none): waits
          LD   R0,ANSWER
          LD   R6,WHOSE
          NOT  R6,R6
          ADD  R6,R6,#1
          ADD  R0,R0,R6       ; is it mine?
          BRnp TAKE           ; no: take another one
          LD   R0,DOUBLE
          LD   R1,ZERO
          ADD  R0,R0,R1       ; make it a digit
          OUT
          LD   R0,NUMBER
          ADD  R0,R0,#2       ; the next number
          ST   R0,NUMBER
          ADD  R0,R0,#-4
          BRnz LOOP
          HALT
REQUESTS  .STRINGZ "/requests"
REPLIES   .STRINGZ "/replies"
READ      .FILL x0040         ; O_CREAT x40 + O_RDONLY 0
WRITE     .FILL x0041         ; O_CREAT x40 + O_WRONLY 1
SIZES     .FILL 0             ; as the server has them: whoever comes
          .FILL 2             ;   first makes the queue
          .FILL 2
          .FILL 0
ZERO      .FILL x30           ; character '0'
MINUS     .FILL x-30
WHOSE     .BLKW 1             ; a request: my digit,
NUMBER    .BLKW 1             ;   and the number
ANSWER    .BLKW 1             ; a reply: whose it is,
DOUBLE    .BLKW 1             ;   and the double
          .END
