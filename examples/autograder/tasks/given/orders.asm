; orders.asm: sends the letters of its console input, up to a full stop, one after
; the other: a small one is an ordinary order and goes to /ordinary, a capital is
; an urgent one and goes to /orders.
          .ORIG x3000
          LEA  R0,URGENT      ; mq_open("/orders", O_CREAT | O_WRONLY, none)
          LD   R1,FLAGS
          TRAP x40            ; R2 is 0: no attributes
          ADD  R5,R0,#0       ; R5 = descriptor of the urgent orders
          LEA  R0,ORDINARY    ; mq_open("/ordinary", O_CREAT | O_WRONLY, none)
          TRAP x40
          ADD  R4,R0,#0       ; R4 = descriptor of the ordinary ones
          ADD  R2,R2,#1       ; length 1
          LEA  R1,ORDER
LOOP      GETC
          ST   R0,ORDER
          LD   R6,STOP
          ADD  R6,R0,R6
          BRz  DONE           ; it was a full stop
          LD   R6,SMALL
          ADD  R6,R0,R6
          BRn  CAPITAL
          ADD  R0,R4,#0
          AND  R3,R3,#0
          TRAP x43            ; mq_send(ordinary, ORDER, length 1, priority 0)
          BR   LOOP
CAPITAL   ADD  R0,R5,#0
          AND  R3,R3,#0
          ADD  R3,R3,#5
          TRAP x43            ; mq_send(urgent, ORDER, length 1, priority 5)
          BR   LOOP
DONE      HALT
ORDINARY  .STRINGZ "/ordinary"
URGENT    .STRINGZ "/orders"
FLAGS     .FILL x0041         ; O_CREAT x40 + O_WRONLY 1
STOP      .FILL x-2E          ; minus character '.'
SMALL     .FILL x-61          ; minus character 'a'
ORDER     .BLKW 1
          .END
