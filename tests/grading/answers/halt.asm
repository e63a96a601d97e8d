     .ORIG x3000
     HALT
     .END
