; server-common.asm: as server.asm, but sends all replies into one queue, /replies,
; from which all clients take theirs. Goes wrong.
          .ORIG x3000
          LEA  R0,REPLIES     ; mq_open("/replies",
          LD   R1,WRITE       ;   O_CREAT | O_WRONLY,
          LEA  R2,SIZES       ;   attributes SIZES)
          TRAP x40
          ADD  R4,R0,#0       ; R4 = descriptor of the replies
          LEA  R0,REQUESTS    ; mq_open("/requests",
          LD   R1,READ        ;   O_CREAT | O_RDONLY,
          TRAP x40            ;   attributes SIZES)
          ADD  R5,R0,#0       ; R5 = descriptor of the requests
          LEA  R1,WHOSE
          AND  R2,R2,#0
          ADD  R2,R2,#2       ; R2 = 2: length of all messages
LOOP      ADD  R0,R5,#0
          TRAP x44            ; mq_receive(requests, WHOSE and NUMBER, 2, none)
          LD   R0,NUMBER
          ADD  R0,R0,R0       ; the service: double the number
          ST   R0,NUMBER
          ADD  R0,R4,#0
          TRAP x43            ; mq_send(replies, WHOSE and NUMBER, 2, priority 0)
          LD   R0,TIMES
          ADD  R0,R0,#-1
          ST   R0,TIMES
          BRp  LOOP
          HALT
REQUESTS  .STRINGZ "/requests"
REPLIES   .STRINGZ "/replies"
READ      .FILL x0040         ; O_CREAT x40 + O_RDONLY 0
WRITE     .FILL x0041         ; O_CREAT x40 + O_WRONLY 1
SIZES     .FILL 0             ; flags (ignored by mq_open)
          .FILL 2             ; maxmsg: two messages
          .FILL 2             ; msgsize: two words
          .FILL 0             ; curmsgs (ignored by mq_open)
TIMES     .FILL 4             ; how many requests are served
WHOSE     .BLKW 1             ; a request or a reply: the client's digit,
NUMBER    .BLKW 1             ;   and the number
          .END
