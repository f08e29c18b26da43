# Suspend, log a line, resume doomed. Within its transaction thread 0 suspends to note what it saw, which is a plain store and stays
# whatever becomes of the transaction. Meanwhile thread 1 takes the lock: the failure is only recorded, and thread 0 goes on suspended. A
# tcheck tells that it is doomed. tresume. handles the failure: the note is in memory, the transaction's store is not.
lock = line 0
data = line 1
note = line 2

thread 0  li r3, 42
thread 0  tbegin.
thread 0  ld r4, lock
thread 0  std r3, data
thread 0  tsuspend.
thread 0  std r3, note        # lands in memory
thread 1  li r5, 1
dooms:
thread 1  std r5, lock
thread 0  tcheck cr2          # 1010: doomed, suspended
thread 0  li r3, 43
thread 0  std r3, note+1      # it may still note
thread 0  tresume.            # handled: back behind tbegin., r3 is 42
thread 0  mfspr r6, TEXASR
