; producer.asm: puts the items 1 and 2 into the buffer, and then the end
; message 0. The buffer is the queue /buffer, which holds two messages.
          .ORIG x3000
          LEA  R0,BUFFER      ; mq_open("/buffer",
          LD   R1,FLAGS       ;   O_CREAT | O_WRONLY,
          LEA  R2,SIZES       ;   attributes SIZES)
          TRAP x40
          ADD  R5,R0,#0       ; R5 = descriptor of the buffer
          LEA  R4,ITEMS       ; R4 = address of the next item
LOOP      ADD  R0,R5,#0       ; mq_send(buffer,
          ADD  R1,R4,#0       ;   the word at R4,
          AND  R2,R2,#0
          ADD  R2,R2,#1       ;   length 1,
          AND  R3,R3,#0       ;   priority 0)
          TRAP x43            ; waits here while the buffer is full
          ADD  R4,R4,#1
          LDR  R0,R4,#-1      ; was it the end message?
          BRnp LOOP
          HALT
BUFFER    .STRINGZ "/buffer"
FLAGS     .FILL x0041         ; O_CREAT x40 + O_WRONLY 1
SIZES     .FILL 0             ; flags (ignored by mq_open)
          .FILL 2             ; maxmsg: two messages
          .FILL 1             ; msgsize: one word
          .FILL 0             ; curmsgs (ignored by mq_open)
ITEMS     .FILL 1
          .FILL 2
          .FILL 0             ; the end message
          .END
