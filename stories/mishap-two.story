# The mishap of version two: a failure was handled in Suspended state, under a running interrupt handler, whose registers and address were
# then gone. Here thread 1 stores to what thread 0's transaction has loaded while thread 0's handler runs. The failure is recorded and
# nothing else (rule F8): state, address and registers stay the handler's, and its work is done in order. What handles is its rfid.
data = line 1
kept = line 8

thread 0  li r10, 1           # the program's r10
thread 0  tbegin.
thread 0  ld r4, data
thread 0  interrupt
thread 0  li r10, 7           # the handler's
fails:
thread 1  std r5, data
thread 0  addi r10, r10, 1    # 8, at 0x504
thread 0  std r10, kept       # 8, at 0x508
thread 0  rfid                # handled: r10 is 1 again
thread 0  mfspr r6, TEXASR
