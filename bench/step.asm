; A loop of ten instructions: arithmetic, loads, stores and a branch.
        .ORIG x3000
        LEA R6,CELLS
LOOP    LDR R0,R6,#0
        ADD R0,R0,#1
        STR R0,R6,#0
        LD R1,MASK
        AND R2,R0,R1
        NOT R3,R2
        ADD R4,R4,R3
        ST R4,TOTAL
        ADD R5,R5,#-1
        BRnzp LOOP
MASK    .FILL x0FF0
TOTAL   .BLKW 1
CELLS   .BLKW 1
        .END
