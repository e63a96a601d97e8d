; calls.asm: nine calls that are refused or do nothing, to count worlds by: six such processes have nearly a million.
          .ORIG x3000
          TRAP x55            ; sem_post of a slot that isn't open: EBADF
          TRAP x55
          TRAP x55
          TRAP x55
          TRAP x55
          TRAP x55
          TRAP x55
          TRAP x55
          HALT
          .END
