     .ORIG x3000
     LEA R0,TEXT
     PUTS
     HALT
TEXT .STRINGZ "cc"
     .END
