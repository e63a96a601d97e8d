; client.asm: asks the server for numbers, and prints what it is told. Its console
; input is its digit, 1 or 2, and then the numbers, up to a full stop.
          .ORIG x3000
          GETC                ; R0 = my digit
          ST   R0,WHOSE
          LEA  R1,REPLY
          STR  R0,R1,#6       ; write it into "/reply?"
          LEA  R0,REPLY       ; mq_open(REPLY,
          LD   R1,READ        ;   O_CREAT | O_RDONLY,
          LEA  R2,SIZES       ;   attributes SIZES)
          TRAP x40
          ADD  R4,R0,#0       ; R4 = descriptor of my replies
          LEA  R0,REQUESTS    ; mq_open("/requests",
          LD   R1,WRITE       ;   O_CREAT | O_WRONLY,
          TRAP x40            ;   attributes SIZES)
          ADD  R5,R0,#0       ; R5 = descriptor of the requests
          AND  R2,R2,#0
          ADD  R2,R2,#2       ; R2 = 2: length of all messages
LOOP      GETC
          LD   R1,MINUS
          ADD  R0,R0,R1
          BRn  DONE           ; it was the full stop
          ST   R0,NUMBER
          ADD  R0,R5,#0
          LEA  R1,WHOSE
          TRAP x43            ; mq_send(requests, WHOSE and NUMBER, 2, priority 0)
          ADD  R0,R4,#0
          LEA  R1,ANSWER
          TRAP x44            ; mq_receive(replies, ANSWER, 2, none): waits
          LD   R0,TOLD
          LD   R1,ZERO
          ADD  R0,R0,R1       ; make it a digit
          OUT
          BR   LOOP
DONE      HALT
REQUESTS  .STRINGZ "/requests"
REPLY     .STRINGZ "/reply?"
READ      .FILL x0040         ; O_CREAT x40 + O_RDONLY 0
WRITE     .FILL x0041         ; O_CREAT x40 + O_WRONLY 1
SIZES     .FILL 0             ; as the server has them: whoever comes
          .FILL 2             ;   first makes the queue
          .FILL 2
          .FILL 0
ZERO      .FILL x30           ; character '0'
MINUS     .FILL x-30
WHOSE     .BLKW 1             ; a request: my digit,
NUMBER    .BLKW 1             ;   and the number
ANSWER    .BLKW 1             ; a reply: whose it is,
TOLD      .BLKW 1             ;   and what I am told
          .END
