; consumer.asm: takes items from the buffer and prints them, up to an end
; message. Each item that it took it counts by a post of /taken.
          .ORIG x3000
          LEA  R0,BUFFER      ; mq_open("/buffer",
          LD   R1,FLAGS       ;   O_CREAT | O_RDONLY,
          LEA  R2,SIZES       ;   attributes SIZES)
          TRAP x40
          ADD  R5,R0,#0       ; R5 = descriptor of the buffer
          LEA  R0,TAKEN       ; sem_open("/taken", O_CREAT, value 0)
          AND  R2,R2,#0
          TRAP x50
          ADD  R4,R0,#0       ; R4 = slot of the count
LOOP      ADD  R0,R5,#0       ; mq_receive(buffer,
          LEA  R1,ITEM        ;   ITEM,
          AND  R2,R2,#0
          ADD  R2,R2,#1       ;   length 1,
          AND  R3,R3,#0       ;   the priority is not wanted)
          TRAP x44            ; waits here while the buffer is empty
          LD   R0,ITEM        ; is it an end message?
          BRz  DONE
          LD   R1,ZERO
          ADD  R0,R0,R1       ; make it a digit
          OUT
          ADD  R0,R4,#0
          TRAP x55            ; sem_post: one more is taken
          BR   LOOP
DONE      HALT
BUFFER    .STRINGZ "/buffer"
TAKEN     .STRINGZ "/taken"
FLAGS     .FILL x0040         ; O_CREAT x40 + O_RDONLY 0
SIZES     .FILL 0             ; as the producer has them: whoever comes
          .FILL 2             ;   first makes the queue
          .FILL 1
          .FILL 0
ZERO      .FILL x30           ; character '0'
ITEM      .BLKW 1
          .END
