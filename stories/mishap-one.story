# The mishap of version one: another thread read a value that never existed. Thread 0 stores 42 in a transaction that never commits, and
# then again and suspends. Neither thread 1 nor thread 2, whatever its state, reads anything but memory's 0: the value is in thread 0's log
# alone (rule A4). The load fails the transaction, which had the line in its write set (rule A3).
data = line 1

thread 0  li r3, 42
thread 0  tbegin.
thread 0  std r3, data
thread 0  ld r4, data         # 42: its own
thread 1  ld r4, data         # 0, and thread 0 fails
thread 0  tbegin.
thread 0  std r3, data
thread 2  tbegin.
thread 2  ld r4, data         # 0, and thread 0 fails
thread 2  tend.
thread 0  tbegin.
thread 0  std r3, data
thread 0  tsuspend.
thread 0  ld r4, data         # 42: its own, suspended too
thread 1  ld r4, data         # 0, and thread 0 is doomed
thread 0  ld r5, data         # 0: the log is gone
thread 0  tresume.
