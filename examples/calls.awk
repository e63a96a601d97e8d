# Writes a program that makes a list of calls, one on a line: the call's name and what R0 to R3 hold, each a number or a
# label; what isn't given is 0. Other lines are statements for the end of the program. The replies stand from x4000 on.
# After k calls the program has made 12k + 2 steps, and its end takes 3 more.
#
#     awk -f examples/calls.awk list >program.asm
#
# with a list like
#
#     mq_open NAME x42
#     mq_getattr 0 x5000
#     NAME .STRINGZ "/q"
BEGIN {
    split("mq_open mq_close mq_unlink mq_send mq_receive mq_getattr mq_setattr", queues)
    split("sem_open sem_close sem_unlink sem_wait sem_trywait sem_post sem_getvalue", semaphores)
    for (i = 1; i <= 7; i++) {
        trap[queues[i]] = sprintf("xF04%d", i - 1)
        trap[semaphores[i]] = sprintf("xF05%d", i - 1)
    }
    print "        .ORIG x3000"
    print "        LEA R6,CALLS"
    print "        LD R5,REPLIES"
    print "NEXT    LDR R0,R6,#0"
    print "        BRz DONE"
    print "        ST R0,CALL"
    print "        LDR R0,R6,#1"
    print "        LDR R1,R6,#2"
    print "        LDR R2,R6,#3"
    print "        LDR R3,R6,#4"
    print "CALL    NOP                 ; becomes the call's TRAP"
    print "        STR R0,R5,#0"
    print "        ADD R5,R5,#1"
    print "        ADD R6,R6,#5"
    print "        BR NEXT"
    print "DONE    HALT"
    print "REPLIES .FILL x4000"
    print "CALLS"
}
$1 in trap {
    print "        .FILL " trap[$1] "          ; " $0
    for (i = 2; i <= 5; i++) print "        .FILL " (i <= NF ? $i : 0)
    next
}
{ statements = statements $0 "\n" }
END {
    print "        .FILL 0"
    printf "%s", statements
    print "        .END"
}
