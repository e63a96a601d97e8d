      .ORIG x3000
      LD R1,NEW
      ADD R2,R2,#1
MAKEA LEA R0,A
      TRAP x50
      ADD R3,R0,#0
      BRzp TAKEA
      LEA R0,A
      TRAP x52
      BR MAKEA
TAKEA ADD R0,R3,#0
      TRAP x53
MAKEB LEA R0,B
      TRAP x50
      ADD R3,R0,#0
      BRzp TAKEB
      LEA R0,B
      TRAP x52
      BR MAKEB
TAKEB ADD R0,R3,#0
      TRAP x53
      HALT
A     .STRINGZ "/a"
B     .STRINGZ "/b"
NEW   .FILL xC0
      .END
