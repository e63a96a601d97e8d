; wrong: prints what is expected in the first run
     .ORIG x3000
     LEA R0,TEXT
     PUTS
     HALT
TEXT .STRINGZ "Hello 321"
     .END
