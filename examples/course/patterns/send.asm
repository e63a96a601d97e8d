; send.asm: opens the queue of receive.asm and sends the number 5.
          .ORIG x3000
          LEA  R0,NAME        ; mq_open("/numbers",
          LD   R1,FLAGS       ;   O_CREAT | O_WRONLY,
          LEA  R2,SIZES       ;   attributes SIZES)
          TRAP x40            ; R0 = descriptor of the queue: mq_send(numbers,
          LEA  R1,NUMBER      ;   NUMBER,
          AND  R2,R2,#0
          ADD  R2,R2,#1       ;   length 1,
          AND  R3,R3,#0       ;   priority 0)
          TRAP x43            ; waits here while the queue is full
          HALT
NAME      .STRINGZ "/numbers"
FLAGS     .FILL x0041         ; O_CREAT x40 + O_WRONLY 1
SIZES     .FILL 0             ; as the receiver has them: whoever comes
          .FILL 2             ;   first makes the queue
          .FILL 1
          .FILL 0
NUMBER    .FILL 5
          .END
