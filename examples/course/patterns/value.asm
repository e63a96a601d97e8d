; value.asm: prints the value of a semaphore, which the subroutine COUNT reads.
          .ORIG x3000
          LEA  R0,NAME        ; sem_open("/places", O_CREAT, value 3)
          LD   R1,CREATE
          AND  R2,R2,#0
          ADD  R2,R2,#3
          TRAP x50
          JSR  COUNT          ; the slot is in R0
          LD   R0,ZERO
          ADD  R0,R0,R3       ; make it a digit
          OUT
          HALT
COUNT     ST   R7,RETURN      ; R3 = the value of the semaphore in slot R0
          LEA  R1,VALUE       ; sem_getvalue(R0, VALUE)
          TRAP x56            ; takes R7, so it was kept
          LD   R7,RETURN
          LD   R3,VALUE       ; sets the codes
          RET
NAME      .STRINGZ "/places"
CREATE    .FILL x40           ; O_CREAT
ZERO      .FILL x30           ; character '0'
VALUE     .BLKW 1
RETURN    .BLKW 1
          .END
