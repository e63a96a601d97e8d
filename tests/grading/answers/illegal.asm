     .ORIG x3000
     .FILL xD000
     .END
