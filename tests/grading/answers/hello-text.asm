; right: writes the digits into the text, and prints that at the end
          .ORIG x3000
          GETC
          LEA  R1,TEXT
          STR  R0,R1,#6
          ADD  R0,R0,#-1
          STR  R0,R1,#7
          ADD  R0,R0,#-1
          STR  R0,R1,#8
          LEA  R0,TEXT
          PUTS
          HALT
TEXT      .STRINGZ "Hello abc"
          .END
