; tray.asm: puts one ingredient on the table, 1, 2 or 4 by its console input, and
; ends. The second one never comes.
          .ORIG x3000
          GETC
          LEA  R3,PUT
          STR  R0,R3,#4       ; write the digit into "/put?"
          ADD  R0,R3,#0       ; sem_open(PUT, O_CREAT, value 0)
          LD   R1,CREATE
          AND  R2,R2,#0
          TRAP x50
          TRAP x55            ; sem_post: it lies on the table
          HALT
PUT       .STRINGZ "/put?"
CREATE    .FILL x40           ; O_CREAT
          .END
