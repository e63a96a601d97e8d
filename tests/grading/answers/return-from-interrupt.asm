     .ORIG x3000
     RTI
     .END
