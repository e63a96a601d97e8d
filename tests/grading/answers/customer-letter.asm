; right: the customer of the course, whose letter is its input
          .ORIG x3000
          GETC
          ST   R0,HAIR
          LD   R1,CREATE
          AND  R2,R2,#0
          LEA  R0,READY
          TRAP x50
          ADD  R3,R0,#0
          LEA  R0,CUT
          TRAP x50
          ADD  R4,R0,#0
          ADD  R2,R2,#1
          LEA  R0,CHAIR
          TRAP x50
          ADD  R5,R0,#0
          LEA  R0,PLACE
          TRAP x50
          ADD  R6,R0,#0
          TRAP x54
          ADD  R0,R0,#0
          BRn  AWAY
          ADD  R0,R5,#0
          TRAP x53
          ADD  R0,R6,#0
          TRAP x55
          ADD  R0,R3,#0
          TRAP x55
          ADD  R0,R4,#0
          TRAP x53
          LD   R0,HAIR
          OUT
          ADD  R0,R5,#0
          TRAP x55
          BR   LEAVE
AWAY      LD   R0,DASH
          OUT
LEAVE     AND  R2,R2,#0
          LEA  R0,GONE
          TRAP x50
          TRAP x55
          HALT
READY     .STRINGZ "/ready"
CUT       .STRINGZ "/cut"
CHAIR     .STRINGZ "/chair"
PLACE     .STRINGZ "/place"
GONE      .STRINGZ "/gone"
CREATE    .FILL x40
HAIR      .FILL x63
DASH      .FILL x2D
          .END
