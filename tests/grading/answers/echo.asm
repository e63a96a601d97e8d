     .ORIG x3000
     GETC
     OUT
     HALT
     .END
