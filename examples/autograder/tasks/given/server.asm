; server.asm: takes requests, each a client's digit and a number, and sends the number
; and what is added into the client's own queue: "/reply" and its digit. Its console
; input is two digits: how many requests there are, and what is added.
          .ORIG x3000
          GETC
          LD   R1,MINUS
          ADD  R0,R0,R1
          ST   R0,TIMES       ; TIMES = how many requests are served
          GETC
          ADD  R0,R0,R1
          ST   R0,MORE        ; MORE = what is added
          LEA  R0,REQUESTS    ; mq_open("/requests",
          LD   R1,READ        ;   O_CREAT | O_RDONLY,
          LEA  R2,SIZES       ;   attributes SIZES)
          TRAP x40
          ADD  R5,R0,#0       ; R5 = descriptor of the requests
LOOP      ADD  R0,R5,#0       ; mq_receive(requests,
          LEA  R1,WHOSE       ;   WHOSE and NUMBER,
          AND  R2,R2,#0
          ADD  R2,R2,#2       ;   length 2,
          AND  R3,R3,#0       ;   the priority is not wanted)
          TRAP x44            ; waits here while there is no request
          LD   R0,NUMBER
          LD   R1,MORE
          ADD  R0,R0,R1       ; the service: so much more
          ST   R0,NUMBER
          LEA  R0,REPLY
          LD   R1,WHOSE
          STR  R1,R0,#6       ; write the digit into "/reply?"
          LD   R1,WRITE       ; mq_open(REPLY, O_CREAT | O_WRONLY,
          LEA  R2,SIZES       ;   attributes SIZES)
          TRAP x40
          ADD  R4,R0,#0       ; R4 = descriptor of the client's queue
          LEA  R1,WHOSE       ; mq_send(R4, WHOSE and NUMBER,
          AND  R2,R2,#0
          ADD  R2,R2,#2       ;   length 2, priority 0)
          TRAP x43
          ADD  R0,R4,#0
          TRAP x41            ; mq_close: a process has 16 descriptors only
          LD   R0,TIMES
          ADD  R0,R0,#-1
          ST   R0,TIMES
          BRp  LOOP
          HALT
REQUESTS  .STRINGZ "/requests"
REPLY     .STRINGZ "/reply?"
READ      .FILL x0040         ; O_CREAT x40 + O_RDONLY 0
WRITE     .FILL x0041         ; O_CREAT x40 + O_WRONLY 1
SIZES     .FILL 0             ; flags (ignored by mq_open)
          .FILL 2             ; maxmsg: two messages
          .FILL 2             ; msgsize: two words
          .FILL 0             ; curmsgs (ignored by mq_open)
TIMES     .BLKW 1
MINUS     .FILL x-30
MORE      .BLKW 1
WHOSE     .BLKW 1             ; a request or a reply: the client's digit,
NUMBER    .BLKW 1             ;   and the number
          .END
