     .ORIG x3000
     LD R0,R
     OUT
     HALT
R    .FILL x72
     .END
