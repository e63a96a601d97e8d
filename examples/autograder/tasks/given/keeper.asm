; keeper.asm: makes the semaphore whose name is its console input, up to a full
; stop, without a unit, and ends: nobody ever gets one. It prints k, or a dash if
; somebody else was there first and has made it.
          .ORIG x3000
          LEA  R4,NAME        ; R4 = where the next character comes
          LD   R5,STOP
READ      GETC
          ADD  R1,R0,R5
          BRz  MAKE           ; it was the full stop
          STR  R0,R4,#0
          ADD  R4,R4,#1
          BR   READ
MAKE      LEA  R0,NAME        ; sem_open(NAME, O_CREAT | O_EXCL, value 0)
          LD   R1,NEW
          AND  R2,R2,#0
          TRAP x50
          ADD  R0,R0,#0
          BRn  LATE
          LD   R0,KEPT
          OUT
          HALT
LATE      LD   R0,DASH
          OUT
          HALT
NEW       .FILL xC0           ; O_EXCL x80 + O_CREAT x40
STOP      .FILL x-2E          ; minus character '.'
KEPT      .FILL x6B           ; character 'k'
DASH      .FILL x2D           ; character '-'
NAME      .BLKW 16            ; x0000 ends the name
          .END
